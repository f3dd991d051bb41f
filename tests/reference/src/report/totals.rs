//! The fourteen totals of one identification.

use crate::fault;
use crate::refusal::Refusal;
use crate::reply::Outcome;

/// The kinds of fault that have a total of their own.
pub const FAULTS: [u32; 10] = [1, 2, 3, 4, 5, 6, 7, 8, 16, 32];

/// How many totals there are.
pub const COLUMNS: usize = 14;

/// No total may pass this "either way".
pub const LIMIT: i64 = 4_294_967_295;

#[derive(Clone, Copy, Debug, Default, PartialEq, Eq)]
pub struct Totals {
    /// Accepted served accesses, whatever became of them.
    pub served: i64,
    pub loads: i64,
    /// By the places of FAULTS.
    pub faults: [i64; FAULTS.len()],
    pub emptied: i64,
    /// Present leaf words after the stores minus those before, "which may be below zero".
    pub net: i64,
}

impl Totals {
    /// In the order of a line.
    pub fn columns(&self) -> [i64; COLUMNS] {
        let mut columns = [0; COLUMNS];
        columns[0] = self.served;
        columns[1] = self.loads;
        columns[2..12].copy_from_slice(&self.faults);
        columns[12] = self.emptied;
        columns[13] = self.net;
        columns
    }

    /// An accepted access. A fault counts by its kind, wherever a walk stopped; one with value 0,
    /// multiple hits, has no total.
    pub fn book_access(&mut self, outcome: Outcome, loads: u32) -> Result<(), Refusal> {
        add(&mut self.served, 1)?;
        add(&mut self.loads, i64::from(loads))?;
        if let Outcome::Fault(value) = outcome {
            if let Some(place) = FAULTS.iter().position(|&kind| kind == fault::kind(value)) {
                add(&mut self.faults[place], 1)?;
            }
        }
        Ok(())
    }

    /// An accepted store, by the slots that it emptied and what it changed in the leaf words.
    pub fn book_store(&mut self, emptied: u32, change: i64) -> Result<(), Refusal> {
        add(&mut self.emptied, i64::from(emptied))?;
        add(&mut self.net, change)
    }
}

/// "A total past 4,294,967,295 either way" is refused at the record that takes it there.
fn add(total: &mut i64, amount: i64) -> Result<(), Refusal> {
    *total += amount;
    match (-LIMIT..=LIMIT).contains(total) {
        true => Ok(()),
        false => Err(Refusal::Total),
    }
}

#[cfg(test)]
mod tests {
    use super::*;

    /// Totals that all stand one below the limit.
    fn below_the_limit() -> Totals {
        Totals {
            served: LIMIT - 1,
            loads: LIMIT - 1,
            faults: [LIMIT - 1; FAULTS.len()],
            emptied: LIMIT - 1,
            net: LIMIT - 1,
        }
    }

    #[test]
    fn each_total_may_reach_the_limit_and_not_pass_it() {
        let mut totals = below_the_limit();
        assert_eq!(totals.book_access(Outcome::Fault(0x310), 1), Ok(()));
        assert_eq!(totals.book_store(1, 1), Ok(()));
        let mut expected = [LIMIT - 1; COLUMNS];
        for column in [0, 1, 10, 12, 13] {
            expected[column] = LIMIT;
        }
        assert_eq!(totals.columns(), expected);
        assert_eq!(totals.book_store(0, 0), Ok(()));
        assert_eq!(totals.clone().book_store(1, 0), Err(Refusal::Total));
        assert_eq!(totals.clone().book_store(0, 1), Err(Refusal::Total));
        let access = totals.clone().book_access(Outcome::At(0), 0);
        assert_eq!(access, Err(Refusal::Total));
    }

    #[test]
    fn each_total_of_an_access_is_tested() {
        for (served, loads, fault, refused) in [
            (1, 0, 0, true),
            (0, 1, 0, true),
            (0, 0, 1, true),
            (0, 0, 0, false),
        ] {
            let mut totals = Totals {
                served: LIMIT - 1 + served,
                loads: LIMIT - 1 + loads,
                ..Totals::default()
            };
            totals.faults[7] = LIMIT - 1 + fault;
            let booked = totals.book_access(Outcome::Fault(8), 1);
            assert_eq!(booked.is_err(), refused, "{served} {loads} {fault}");
        }
    }

    #[test]
    fn the_net_change_has_a_limit_below_zero_too() {
        let mut totals = Totals::default();
        assert_eq!(totals.book_store(0, -LIMIT), Ok(()));
        assert_eq!(totals.net, -LIMIT);
        assert_eq!(totals.book_store(0, -1), Err(Refusal::Total));
    }
}
