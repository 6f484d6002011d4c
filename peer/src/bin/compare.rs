//! Calls the peer and the archive on the same inputs and stops at the first difference.
//!
//! `compare [SEED] [COUNT]`: the seed of the random inputs, and a scale for how many there are of each
//! kind.

mod groups;

use std::env;
use std::process::exit;

use groups::harness::Comparison;
use peer::random::Random;

const DEFAULT_SEED: u64 = 20_240_501;
const DEFAULT_COUNT: usize = 1600;

fn main() {
    let arguments: Vec<String> = env::args().skip(1).collect();
    if arguments.len() > 2 {
        usage();
    }
    let seed = number(arguments.first(), DEFAULT_SEED);
    let count = number(arguments.get(1), DEFAULT_COUNT as u64) as usize;
    println!("compare: seed {seed}, count {count}");
    let mut comparison = Comparison::new();
    let mut random = Random::new(seed);
    for (name, group) in groups::ALL {
        comparison.start(name);
        group(&mut comparison, &mut random, count);
        comparison.finish();
    }
    println!("compare: {} inputs, all equal", comparison.total());
}

fn number(argument: Option<&String>, default: u64) -> u64 {
    match argument {
        None => default,
        Some(text) => text.parse().unwrap_or_else(|_| usage()),
    }
}

fn usage() -> ! {
    eprintln!("usage: compare [SEED] [COUNT]");
    exit(2)
}
