//! Random networks of each shape, put through every call.

use peer::calls::no_blocks;
use peer::edition::MAX_BLOCK_SIZE;
use peer::networks::{network, repeat_links, Shape, Size, SHAPES};
use peer::pack;
use peer::picture::Picture;
use peer::random::Random;

use super::harness::Comparison;
use super::{all_acts, choose_and_check, every_call};

/// Small networks of all shapes.
pub fn small(comparison: &mut Comparison, random: &mut Random, count: usize) {
    for _ in 0..count {
        for shape in SHAPES {
            let size = Size::small(random);
            let picture = network(random, shape, size);
            every_call(comparison, random, &pack(&picture));
        }
    }
}

pub fn dense(comparison: &mut Comparison, random: &mut Random, count: usize) {
    of_shape(comparison, random, count, Shape::Dense);
}

pub fn chains(comparison: &mut Comparison, random: &mut Random, count: usize) {
    of_shape(comparison, random, count, Shape::Chain);
}

pub fn cycles(comparison: &mut Comparison, random: &mut Random, count: usize) {
    of_shape(comparison, random, count, Shape::Cycle);
}

pub fn stars(comparison: &mut Comparison, random: &mut Random, count: usize) {
    of_shape(comparison, random, count, Shape::Star);
}

pub fn flat(comparison: &mut Comparison, random: &mut Random, count: usize) {
    of_shape(comparison, random, count, Shape::Flat);
}

pub fn unreached(comparison: &mut Comparison, random: &mut Random, count: usize) {
    of_shape(comparison, random, count, Shape::Unreached);
}

pub fn repeated(comparison: &mut Comparison, random: &mut Random, count: usize) {
    of_shape(comparison, random, count, Shape::Repeated);
}

pub fn layers(comparison: &mut Comparison, random: &mut Random, count: usize) {
    of_shape(comparison, random, count, Shape::Layers);
}

/// Networks at the limits: shapes with fewer links name theirs again.
pub fn full(comparison: &mut Comparison, random: &mut Random, count: usize) {
    for round in 0..count.div_ceil(32) {
        let size = Size::full(random);
        let mut picture = network(random, SHAPES[round % SHAPES.len()], size);
        repeat_links(random, &mut picture);
        large(comparison, random, &picture, round);
    }
}

/// Every shape with every block size, all blocks through every call.
pub fn block_sizes(comparison: &mut Comparison, random: &mut Random, count: usize) {
    for _ in 0..count.div_ceil(4000) {
        for block_size in 1..=MAX_BLOCK_SIZE {
            for shape in SHAPES {
                let size = Size::of_blocks(random, block_size);
                let picture = network(random, shape, size);
                every_call(comparison, random, &pack(&picture));
            }
        }
    }
}

/// More slots than the first edition has, in every shape.
pub fn beyond_first(comparison: &mut Comparison, random: &mut Random, count: usize) {
    for round in 0..count.div_ceil(16) {
        let size = Size::beyond_first(random);
        let picture = network(random, SHAPES[round % SHAPES.len()], size);
        // Rounds of one shape are eight apart, so that each of them has its turn in every call.
        large(comparison, random, &picture, round / SHAPES.len());
    }
}

fn of_shape(comparison: &mut Comparison, random: &mut Random, count: usize, shape: Shape) {
    for round in 0..count.div_ceil(16) {
        let size = Size::any(random);
        let picture = network(random, shape, size);
        large(comparison, random, &picture, round);
    }
}

/// Every call; every block in some of the networks, in the others a few.
fn large(comparison: &mut Comparison, random: &mut Random, picture: &Picture, round: usize) {
    let bytes = pack(picture);
    if round % 8 == 0 {
        every_call(comparison, random, &bytes);
        return;
    }
    choose_and_check(comparison, random, &bytes);
    let blocks = picture.block_count() as u32;
    let few = [(); 4].map(|_| random.below(blocks as usize) as u32);
    let outside = no_blocks(random, blocks);
    all_acts(comparison, &bytes, few.into_iter().chain([blocks - 1]).chain(outside));
}
