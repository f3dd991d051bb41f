//! Two sides measured in turn.

/// Rattle and the second program, whatever is kept for each.
#[derive(Clone, Copy, Debug)]
pub struct Both<T> {
    pub rattle: T,
    pub second: T,
}

impl<T> Both<T> {
    pub fn map<U>(self, mut f: impl FnMut(T) -> U) -> Both<U> {
        Both {
            rattle: f(self.rattle),
            second: f(self.second),
        }
    }
}

/// The median seconds of each side, and the median of the rounds' ratios.
#[derive(Clone, Copy, Debug)]
pub struct Medians {
    pub seconds: Both<f64>,
    pub ratio: f64,
}

/// An odd number of rounds. Each measures both sides, one right after the other, so that whatever
/// else the machine does is about the same for both; the side that goes first changes.
pub fn medians<S: Copy>(
    rounds: usize,
    sides: Both<S>,
    mut seconds: impl FnMut(S) -> Result<f64, String>,
) -> Result<Medians, String> {
    let (mut rattle, mut second, mut ratios) = (Vec::new(), Vec::new(), Vec::new());
    for round in 0..rounds {
        let (of_rattle, of_second) = if round % 2 == 0 {
            let of_rattle = seconds(sides.rattle)?;
            (of_rattle, seconds(sides.second)?)
        } else {
            let of_second = seconds(sides.second)?;
            (seconds(sides.rattle)?, of_second)
        };
        ratios.push(of_rattle / of_second);
        rattle.push(of_rattle);
        second.push(of_second);
    }
    Ok(Medians {
        seconds: Both { rattle, second }.map(median),
        ratio: median(ratios),
    })
}

fn median(mut numbers: Vec<f64>) -> f64 {
    numbers.sort_by(f64::total_cmp);
    numbers[numbers.len() / 2]
}
