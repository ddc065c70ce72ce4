//! Rounds of what is to be compared, in turn, and what their times tell.

use std::hint::black_box;
use std::time::Instant;

/// Something to measure: each call of `round` prepares what it needs and gives the nanoseconds of one unit of its work.
pub struct Runner<'a> {
    pub name: &'static str,
    round: Box<dyn FnMut() -> f64 + 'a>,
}

impl<'a> Runner<'a> {
    pub fn new(name: &'static str, round: impl FnMut() -> f64 + 'a) -> Runner<'a> {
        Runner {
            name,
            round: Box::new(round),
        }
    }

    /// A function over and over, so many times a round, after once that does not count.
    pub fn repeated(name: &'static str, times: u32, mut work: impl FnMut() + 'a) -> Runner<'a> {
        Runner::new(name, move || {
            work();
            let start = Instant::now();
            for _ in 0..times {
                work();
            }
            nanoseconds(start) / f64::from(times)
        })
    }
}

pub fn nanoseconds(start: Instant) -> f64 {
    start.elapsed().as_nanos() as f64
}

/// What taking the time costs: the least of many tries at nothing.
pub fn clock_cost() -> f64 {
    (0..1000)
        .map(|_| nanoseconds(black_box(Instant::now())))
        .fold(f64::INFINITY, f64::min)
}

/// The times of one runner, round by round.
#[derive(Clone, Debug)]
pub struct Times {
    pub name: &'static str,
    rounds: Vec<f64>,
}

/// A lower quartile, a median and an upper quartile.
#[derive(Clone, Copy, Debug)]
pub struct Spread {
    pub lower: f64,
    pub median: f64,
    pub upper: f64,
}

/// Runs all in turn, row by row, and all again, so that what changes with time changes for all; a first round is left out.
pub fn measure(mut rows: Vec<Vec<Runner>>, rounds: usize) -> Vec<Vec<Times>> {
    let no_times = |runner: &Runner| Times {
        name: runner.name,
        rounds: Vec::with_capacity(rounds),
    };
    let no_times = |row: &Vec<Runner>| row.iter().map(no_times).collect();
    let mut times: Vec<Vec<Times>> = rows.iter().map(no_times).collect();
    for round in 0..=rounds {
        let runners = rows.iter_mut().flatten();
        for (runner, times) in runners.zip(times.iter_mut().flatten()) {
            let time = (runner.round)();
            if round > 0 {
                times.rounds.push(time);
            }
        }
    }
    times
}

impl Times {
    pub fn spread(&self) -> Spread {
        spread(self.rounds.clone())
    }

    pub fn median(&self) -> f64 {
        self.spread().median
    }

    /// How many times as long as another, round by round.
    pub fn over(&self, other: &Times) -> Spread {
        spread(self.with(other, |mine, theirs| mine / theirs).rounds)
    }

    /// What is left without another, round by round.
    pub fn without(&self, other: &Times) -> Times {
        self.with(other, |mine, theirs| mine - theirs)
    }

    /// The same for one of so many things that were done.
    pub fn each_of(&self, count: u16) -> Times {
        let each = |time: &f64| time / f64::from(count);
        Times {
            name: self.name,
            rounds: self.rounds.iter().map(each).collect(),
        }
    }

    fn with(&self, other: &Times, f: impl Fn(f64, f64) -> f64) -> Times {
        let pairs = self.rounds.iter().zip(&other.rounds);
        Times {
            name: self.name,
            rounds: pairs.map(|(mine, theirs)| f(*mine, *theirs)).collect(),
        }
    }
}

fn spread(mut values: Vec<f64>) -> Spread {
    values.sort_by(f64::total_cmp);
    let at = |share: f64| {
        let place = share * (values.len() - 1) as f64;
        let (low, high) = (place.floor() as usize, place.ceil() as usize);
        values[low] + (values[high] - values[low]) * place.fract()
    };
    Spread {
        lower: at(0.25),
        median: at(0.5),
        upper: at(0.75),
    }
}
