//! Blocks of equal loss: which of them choose names, and which of them evidence may name.

use peer::choice::{Plan, Section};
use peer::edition::{MAX_BLOCK_SIZE, MAX_ENDPOINTS};
use peer::foreign::{self, GROWTHS};
use peer::networks::{any_edition, tied};
use peer::pack;
use peer::picture::Picture;
use peer::random::Random;
use peer::refusals;

use super::evidence::{each_verdict, random_fields};
use super::harness::Comparison;
use super::{canonical, choose_and_check};

/// At most so many blocks of least loss are named; in small networks these are all of them.
const NAMED: usize = 6;

/// Few blocks, with every verdict in some of them.
pub fn small(comparison: &mut Comparison, random: &mut Random, count: usize) {
    for round in 0..count {
        let (block_size, blocks) = (random.between(1, 3), random.between(2, 4));
        let endpoints = blocks + random.below(6);
        let edition = any_edition(random);
        let picture = tied(random, edition, block_size, blocks, endpoints);
        each_name(comparison, random, &picture);
        if round % 8 == 0 {
            let evidence = canonical(&pack(&picture)).expect("networks are accepted");
            each_verdict(comparison, &picture, &evidence);
        }
    }
}

/// Any number of blocks and endpoints, up to the limits.
pub fn large(comparison: &mut Comparison, random: &mut Random, count: usize) {
    for _ in 0..count.div_ceil(32) {
        let (edition, block_size) = (any_edition(random), random.between(1, MAX_BLOCK_SIZE));
        let blocks = end_or_between(random, 2, edition.most_blocks(block_size));
        let endpoints = end_or_between(random, blocks, MAX_ENDPOINTS);
        let picture = tied(random, edition, block_size, blocks, endpoints);
        each_name(comparison, random, &picture);
    }
}

fn end_or_between(random: &mut Random, low: usize, high: usize) -> usize {
    let between = random.between(low, high);
    *random.pick(&[low, between, high])
}

/// Choose and, with forests of each maker, evidence that names each block of least loss.
fn each_name(comparison: &mut Comparison, random: &mut Random, picture: &Picture) {
    choose_and_check(comparison, random, &pack(picture));
    names_of_least_loss(comparison, random, picture, &Plan::of(picture));
    let growth = *random.pick(&GROWTHS);
    let foreign = foreign::plan(random, picture, growth);
    names_of_least_loss(comparison, random, picture, &foreign);
}

/// The check lets a block of least loss be named where no other one cuts fewer endpoints; other
/// faults of the same evidence come first.
fn names_of_least_loss(
    comparison: &mut Comparison,
    random: &mut Random,
    picture: &Picture,
    plan: &Plan,
) {
    let Some(least) = plan.least() else { return };
    let mut equals: Vec<&Section> =
        plan.admissible().filter(|section| section.cut.loss == least.cut.loss).collect();
    random.shuffle(&mut equals);
    for section in equals.into_iter().take(NAMED) {
        let evidence = plan.evidence(Some(section));
        let answer = comparison.check(&pack(picture), &evidence);
        let due = match section.cut.endpoints == least.cut.endpoints {
            true => 0,
            false => -i32::from(refusals::VERDICT),
        };
        comparison.expect("check of evidence that names a block of least loss", answer, due);
        random_fields(comparison, random, picture, &evidence, 1);
    }
}
