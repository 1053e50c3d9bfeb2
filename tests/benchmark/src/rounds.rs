//! Times the versions in turn and prints best, median and ratios.

use crate::proved::{Library, LIBRARIES};
use std::time::Instant;

const ROUNDS: usize = 61;

/// What a version took for one thing, in nanoseconds.
struct Taken {
    name: &'static str,
    best: f64,
    median: f64,
}

impl Taken {
    fn of(name: &'static str, mut times: Vec<f64>) -> Self {
        times.sort_by(f64::total_cmp);
        Taken {
            name,
            best: times[0],
            median: times[times.len() / 2],
        }
    }

    fn print(&self) {
        let name = format!("{}:", self.name);
        let (best, median) = (self.best, self.median);
        println!("{name:<7} best {best:.2} ns, median {median:.2} ns");
    }

    fn print_ratio(&self, other: &Self) {
        println!(
            "{}/{}: bests {:.3}, medians {:.3}",
            self.name,
            other.name,
            self.best / other.best,
            self.median / other.median
        );
    }
}

/// A round of each version does `items` things; all are timed in the same run, in turn. Two
/// libraries change places from round to round: neither always comes behind Rust's version.
pub fn compare(items: usize, mut proved: impl FnMut(&Library), mut rust: impl FnMut()) {
    let mut proved_times = vec![Vec::new(); LIBRARIES.len()];
    let mut rust_times = Vec::new();
    for round in 0..ROUNDS {
        for turn in 0..LIBRARIES.len() {
            let place = (round + turn) % LIBRARIES.len();
            let time = nanoseconds_each(items, || proved(&LIBRARIES[place]));
            proved_times[place].push(time);
        }
        rust_times.push(nanoseconds_each(items, &mut rust));
    }
    let names = LIBRARIES.iter().map(|library| library.name);
    let proved: Vec<Taken> = names
        .zip(proved_times)
        .map(|(name, times)| Taken::of(name, times))
        .collect();
    print(&proved, &Taken::of("Rust", rust_times));
}

fn print(proved: &[Taken], rust: &Taken) {
    for taken in proved {
        taken.print();
    }
    rust.print();
    for taken in proved {
        taken.print_ratio(rust);
    }
    if let [taken, beside] = proved {
        taken.print_ratio(beside);
    }
}

fn nanoseconds_each(items: usize, round: impl FnOnce()) -> f64 {
    let start = Instant::now();
    round();
    start.elapsed().as_nanos() as f64 / items as f64
}
