//! A load that can be repeated: a thousand networks of each of three sizes, which are generated from
//! seeds and so are the same on every machine. How long a call takes differs from network to network,
//! and the slowest ones tell more than a median.

use std::time::Duration;

use peer::{read, Asked, Picture};

use crate::times::{median, sorted, Both, Effort, Times};
use crate::{generated, Case};

const NETWORKS: u64 = 1000;

/// What a network takes is the least of its measurements: other work on the machine only ever adds to
/// one, and without this the slowest network would be one that the scheduler interrupted. They are
/// spread over passes over all networks, so that a slow spell of the machine does not have all of them.
const PASSES: usize = 5;
const EFFORT: Effort = Effort { measurements: 2, least_time: Duration::from_micros(50) };

const SIZES: [(&str, Asked); 3] = [
    (
        "small: n 24, b 4, D 12, L S 40",
        Asked { block_size: 4, blocks: 6, endpoints: 12, links: 40, serving: 40 },
    ),
    (
        "middle: n 96, b 4, D 60, L S 400",
        Asked { block_size: 4, blocks: 24, endpoints: 60, links: 400, serving: 400 },
    ),
    (
        "large: n 240, b 4, D 200, L S 2000",
        Asked { block_size: 4, blocks: 60, endpoints: 200, links: 2000, serving: 2000 },
    ),
];

/// What the networks of one size take in one call, in rising order.
struct Spread {
    archive: Vec<f64>,
    peer: Vec<f64>,
}

impl Spread {
    fn of(networks: &[Both]) -> Spread {
        let times = |side: fn(&Both) -> f64| sorted(&networks.iter().map(side).collect::<Vec<f64>>());
        Spread { archive: times(|both| both.archive), peer: times(|both| both.peer) }
    }

    fn print(&self, size: &str, call: &str) {
        print!("{size:<36}{call:<8}");
        for times in [&self.archive, &self.peer] {
            let worst = times[times.len() - 1];
            print!("{:>11.2}{:>11.2}{worst:>11.2}", median(times), ninety_ninth(times));
        }
        println!("{:>14.2}", median(&self.archive) / median(&self.peer));
    }
}

/// The time that 99 of a hundred networks keep to.
fn ninety_ninth(rising: &[f64]) -> f64 {
    rising[(rising.len() * 99).div_ceil(100) - 1]
}

fn network(seed: u64, asked: &Asked) -> Picture {
    read(&generated(seed, asked)).expect("generated pictures are accepted")
}

type Measured = fn(&Case, Effort) -> Times;

/// The least times of each network.
fn least_times(cases: &[Case], call: Measured) -> Vec<Both> {
    let mut least = vec![Both { archive: f64::INFINITY, peer: f64::INFINITY }; cases.len()];
    for _ in 0..PASSES {
        for (least, case) in least.iter_mut().zip(cases) {
            *least = least.lesser(call(case, EFFORT).least());
        }
    }
    least
}

fn print_size(size: &str, asked: &Asked) {
    let cases: Vec<Case> = (1..=NETWORKS).map(|seed| Case::of(&network(seed, asked))).collect();
    let calls: [(&str, Measured); 2] = [("choose", Case::choose), ("check", Case::check)];
    for (name, call) in calls {
        Spread::of(&least_times(&cases, call)).print(size, name);
    }
}

pub fn print_load() {
    println!(
        "generated networks, seeds 1 to {NETWORKS}: time a call in microseconds, of each network the least of {}",
        PASSES * EFFORT.measurements
    );
    println!("{:<44}{:>33}{:>33}{:>14}", "", "archive", "peer", "archive/peer");
    print!("{:<36}{:<8}", "size", "call");
    for _ in 0..2 {
        print!("{:>11}{:>11}{:>11}", "median", "99 of 100", "worst");
    }
    println!("{:>14}", "of medians");
    for (size, asked) in &SIZES {
        print_size(size, asked);
    }
}
