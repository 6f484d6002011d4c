//! Pricing by traffic records: flat networks of the cases' sizes, and how many records a second.
//!
//! The archive is measured beside the peer's count of feeders, which takes one pass over the records as the
//! archive does. The peer's walks, which take as many searches as there are blocks, must only agree.

use std::hint::black_box;

use peer::edition::MAX_BLOCKS;
use peer::networks::{flat_held, Size};
use peer::price::{pack_records, price_by_feeders, Record, MAX_RECORDS};
use peer::random::Random;
use peer::{archive, pack, price, Picture};

use crate::times::{Both, Effort, Times};
use crate::{cases, differ, stack, SEED};

/// So few that most of a call is the picture, and as many as there may be.
const COUNTS: [usize; 2] = [100, MAX_RECORDS];

/// A flat network to measure on, with records of any weight for any of its endpoints.
struct Traffic {
    picture: Vec<u8>,
    records: Vec<u8>,
}

impl Traffic {
    /// A network of the picture's size, and so many records.
    fn like(picture: &Picture, count: usize) -> Traffic {
        let mut random = Random::new(SEED);
        let flat = flat_held(&mut random, Size::of(picture));
        let record = |_| Record {
            endpoint: random.between(1, flat.endpoints.len()) as u8,
            weight: random.draw() as u16,
        };
        let records: Vec<Record> = (0..count).map(record).collect();
        let traffic = Traffic { picture: pack(&flat), records: pack_records(&records) };
        traffic.must_agree();
        traffic
    }

    fn must_agree(&self) {
        let mut counters = [0; MAX_BLOCKS];
        let answer = archive::price(&self.picture, &self.records, &mut counters);
        let walked = price(&self.picture, &self.records);
        let agrees = answer == 0
            && walked == Ok(counters)
            && price_by_feeders(&self.picture, &self.records) == walked;
        if !agrees {
            differ();
        }
    }

    fn times(&self, effort: Effort) -> Times {
        let mut counters = [0; MAX_BLOCKS];
        Times::of(
            effort,
            || archive::price(black_box(&self.picture), black_box(&self.records), &mut counters),
            || price_by_feeders(black_box(&self.picture), black_box(&self.records)),
        )
    }
}

pub fn print_prices(effort: Effort) {
    println!(
        "flat networks of these sizes: time a call in microseconds, median of {}, and million records a second",
        effort.measurements
    );
    println!(
        "{:<36}{:<8}{:>8}{:>12}{:>12}{:>14}{:>12}{:>12}",
        "case", "call", "records", "archive", "peer", "archive/peer", "archive", "peer"
    );
    for (name, picture) in cases() {
        for count in COUNTS {
            let Both { archive, peer } = Traffic::like(&picture, count).times(effort).medians();
            // So many in a microsecond are so many million in a second.
            let [archive_rate, peer_rate] = [archive, peer].map(|time| count as f64 / time);
            println!(
                "{name:<36}{:<8}{count:>8}{archive:>12.2}{peer:>12.2}{:>14.2}{archive_rate:>12.1}{peer_rate:>12.1}",
                "price",
                archive / peer
            );
        }
    }
}

/// The peak stack on a flat network of the picture's size, with as many records as there may be.
pub fn peak(picture: &Picture) -> usize {
    let traffic = Traffic::like(picture, MAX_RECORDS);
    let mut counters = [0; MAX_BLOCKS];
    stack::peak(&mut || {
        archive::price(&traffic.picture, &traffic.records, &mut counters);
    })
}
