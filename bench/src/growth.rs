//! How costs grow with entries and records, and whether that is a line.

use crate::checks::Checks;
use crate::clerk::Clerk;
use crate::measure::Times;

/// Costs by a number; the points have the same runners in the same order.
pub struct Growth {
    pub points: Vec<(u16, Vec<Times>)>,
}

impl Growth {
    /// The checks of every call, for 4 files of 5 fields.
    pub fn with_entries(checks: &[Checks]) -> Growth {
        let mut points: Vec<(u16, Vec<Times>)> = checks
            .iter()
            .filter(|checks| (checks.size.files, checks.size.fields) == (4, 5))
            .map(|checks| (checks.size.entries, checks.times.clone()))
            .collect();
        points.sort_by_key(|(entries, _)| *entries);
        Growth { points }
    }

    /// A call of the clerk's work on one file.
    pub fn with_records(clerks: &[Clerk]) -> Growth {
        let of_one_file = clerks.iter().filter(|clerk| clerk.files == 1);
        Growth {
            points: of_one_file
                .map(|clerk| (clerk.records, clerk.times.clone()))
                .collect(),
        }
    }

    /// The medians of a runner.
    pub fn line(&self, runner: usize) -> Vec<(f64, f64)> {
        let point =
            |(number, times): &(u16, Vec<Times>)| (f64::from(*number), times[runner].median());
        self.points.iter().map(point).collect()
    }

    /// How far a point of a runner is from the straight line that fits best, at most, as a share of the line there.
    pub fn deviation(&self, runner: usize) -> f64 {
        let points = self.line(runner);
        let count = points.len() as f64;
        let mean_x = points.iter().map(|(x, _)| x).sum::<f64>() / count;
        let mean_y = points.iter().map(|(_, y)| y).sum::<f64>() / count;
        let product: f64 = points
            .iter()
            .map(|(x, y)| (x - mean_x) * (y - mean_y))
            .sum();
        let square: f64 = points.iter().map(|(x, _)| (x - mean_x).powi(2)).sum();
        let fitted = |x: f64| mean_y + product / square * (x - mean_x);
        points
            .iter()
            .map(|(x, y)| (y / fitted(*x) - 1.0).abs())
            .fold(0.0, f64::max)
    }

    /// How many times the cost at one number is the cost at another.
    pub fn step(&self, from: u16, to: u16) -> f64 {
        let at = |number| {
            let point = self.points.iter().find(|(at, _)| *at == number);
            point.map_or(f64::NAN, |(_, times)| times[0].median())
        };
        at(to) / at(from)
    }
}
