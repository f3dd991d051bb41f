//! A comparison's cases, put to stand-ins.

use super::{Faults, StandIn};
use crate::alone::Alone;
use crate::put::PutJudged;

/// Puts the cases to a right stand-in and to one with each of the faults: every faulty one shows,
/// and the right one does not.
pub fn every_fault_shows(
    faults: impl Iterator<Item = Faults>,
    cases: impl FnOnce(&mut dyn PutJudged),
) {
    let faults = [Faults::NONE].into_iter().chain(faults);
    let mut stand_ins: Vec<StandIn> = faults.map(StandIn::new).collect();
    let mut count = 0;
    cases(&mut Alone::new(|request, right| {
        let call = request.call;
        stand_ins.retain_mut(|stand_in| {
            let agrees = stand_in.answer(request) == *right;
            if !agrees {
                let name = stand_in.faults.name();
                println!("{name} shows at case {count}: {call:?}");
            }
            agrees
        });
        count += 1;
    }));
    let left: Vec<String> = stand_ins.iter().map(|one| one.faults.name()).collect();
    assert_eq!(left, ["None"], "no case shows these");
}
