//! Rounds of two jobs or more in turn, so that what else the machine does falls on all alike.

use std::fmt;

/// The times of one job's rounds, in the unit of whoever measures.
#[derive(Clone, Copy, Debug, PartialEq)]
pub struct Spread {
    pub lowest: f64,
    pub median: f64,
    pub highest: f64,
}

impl Spread {
    /// Of times that are at least one.
    fn of(mut times: Vec<f64>) -> Spread {
        times.sort_by(f64::total_cmp);
        Spread {
            lowest: times[0],
            median: times[times.len() / 2],
            highest: times[times.len() - 1],
        }
    }
}

impl fmt::Display for Spread {
    fn fmt(&self, out: &mut fmt::Formatter) -> fmt::Result {
        let places = out.precision().unwrap_or(1);
        let Spread {
            lowest,
            median,
            highest,
        } = self;
        write!(
            out,
            "{median:.places$} ({lowest:.places$} to {highest:.places$})"
        )
    }
}

/// Runs each job once unmeasured, then both in turn.
pub fn in_turn<E>(
    rounds: usize,
    mut one: impl FnMut() -> Result<f64, E>,
    mut other: impl FnMut() -> Result<f64, E>,
) -> Result<[Spread; 2], E> {
    one()?;
    other()?;
    let mut times = [Vec::new(), Vec::new()];
    for _ in 0..rounds {
        times[0].push(one()?);
        times[1].push(other()?);
    }
    Ok(times.map(Spread::of))
}

/// The same of as many jobs as there are. None of them can fail.
pub fn all_in_turn<const N: usize>(rounds: usize, jobs: [&dyn Fn() -> f64; N]) -> [Spread; N] {
    let one_round = |_| jobs.map(|job| job());
    let all: Vec<[f64; N]> = (0..=rounds).map(one_round).collect();
    let measured = |job: usize| all[1..].iter().map(|round| round[job]).collect();
    std::array::from_fn(|job| Spread::of(measured(job)))
}

#[cfg(test)]
mod tests {
    use super::*;
    use std::cell::Cell;

    #[test]
    fn median_and_spread_leave_out_the_first() {
        let mut times = [9.0, 3.0, 1.0, 2.0].into_iter();
        let one = || Ok::<f64, ()>(times.next().unwrap());
        let [one, other] = in_turn(3, one, || Ok(5.0)).unwrap();
        assert_eq!(format!("{one:.0}"), "2 (1 to 3)");
        assert_eq!(other.median, 5.0);
    }

    #[test]
    fn three_jobs_have_their_turns() {
        let turns = Cell::new(0.0);
        let next = || {
            turns.set(turns.get() + 1.0);
            turns.get()
        };
        let spreads = all_in_turn(3, [&next, &next, &next]);
        let told = spreads.map(|spread| format!("{spread:.0}"));
        assert_eq!(told, ["7 (4 to 10)", "8 (5 to 11)", "9 (6 to 12)"]);
    }
}
