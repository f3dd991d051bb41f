//! Each ground of number 12 alone, in each way in which it comes about, and what is nearly one and
//! passes.

mod broken;
mod frames;
mod hidden;
mod met;
mod overlap;
mod twice;

use super::known::{self, Known};
use super::plot::Plot;
use crate::put::PutJudged;
use crate::random::Random;
use reference::collector::Unfit;

/// How many plots each way has.
const PLOTS_OF_A_WAY: usize = 5;

/// So many plots are grown at the most until one has the way.
const MOST_TRIES: usize = 1000;

/// None where the plot that was grown has no place for it.
type Make = Box<dyn Fn(&mut Random) -> Option<Plot>>;

/// One way in which a ground is given, or nearly is.
pub struct Way {
    name: String,
    /// The only ground, or none.
    ground: Option<Unfit>,
    make: Make,
}

impl Way {
    pub fn refused(
        ground: Unfit,
        name: impl Into<String>,
        make: impl Fn(&mut Random) -> Option<Plot> + 'static,
    ) -> Way {
        Way {
            name: name.into(),
            ground: Some(ground),
            make: Box::new(make),
        }
    }

    pub fn accepted(
        name: impl Into<String>,
        make: impl Fn(&mut Random) -> Option<Plot> + 'static,
    ) -> Way {
        Way {
            name: name.into(),
            ground: None,
            make: Box::new(make),
        }
    }

    fn outcome(&self) -> String {
        match self.ground {
            Some(_) => format!("pass refused 12 alone: {}", self.name),
            None => format!("pass accepted: {}", self.name),
        }
    }

    /// A plot that the pass is refused over on this ground alone, or that it is accepted over.
    fn plot(&self, random: &mut Random) -> Plot {
        let expected = self.ground.into_iter().collect::<Vec<Unfit>>();
        (0..MOST_TRIES)
            .filter_map(|_| (self.make)(random))
            .find(|plot| plot.grounds() == expected)
            .unwrap_or_else(|| panic!("no plot has this: {}", self.name))
    }
}

fn ways() -> Vec<Way> {
    [
        broken::ways(),
        twice::ways(),
        overlap::ways(),
        met::ways(),
        frames::ways(),
        hidden::ways(),
    ]
    .into_iter()
    .flatten()
    .collect()
}

pub fn all_outcomes() -> Vec<String> {
    ways().iter().map(Way::outcome).collect()
}

pub fn put(to: &mut dyn PutJudged, random: &mut Random) {
    for way in ways() {
        for _ in 0..PLOTS_OF_A_WAY {
            let known = Known {
                plot: way.plot(random),
                outcomes: vec![way.outcome()],
            };
            known::put(to, known);
        }
    }
}
