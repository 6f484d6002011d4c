//! Pictures generated from seeds: sizes that are right with every kind of seed and buffer, and sizes
//! around every limit.

use peer::edition::{FIRST, MAX_BLOCKS, MAX_BLOCK_SIZE, MAX_ENDPOINTS, MAX_LINKS};
use peer::random::Random;
use peer::{read, Asked};

use super::harness::Comparison;
use super::{old_bytes, some_calls};

/// Seeds at the ends of 64 and of 32 bits, and around the one whose first state is 0.
const SEEDS: [u64; 14] = [
    0,
    1,
    2,
    (1 << 32) - 1,
    1 << 32,
    (1 << 63) - 1,
    1 << 63,
    (1 << 63) + 1,
    u64::MAX - 2,
    u64::MAX - 1,
    u64::MAX,
    FIRST_STATE_0 - 1,
    FIRST_STATE_0,
    FIRST_STATE_0 + 1,
];
const FIRST_STATE_0: u64 = 0u64.wrapping_sub(0x9E37_79B9_7F4A_7C15);

fn any_seed(random: &mut Random) -> u64 {
    match random.once_in(3) {
        true => *random.pick(&SEEDS),
        false => random.draw(),
    }
}

/// The length of a picture of sizes that are right, and a fit length for others.
fn due(asked: &Asked) -> usize {
    let slots = asked.block_size.saturating_mul(asked.blocks);
    let lengths = [slots, asked.endpoints, asked.links, asked.serving];
    let [slots, endpoints, links, serving] = lengths.map(|length| (length as usize).min(MAX_LINKS));
    FIRST.picture_bytes(slots, endpoints, links, serving)
}

/// Generate with every kind of buffer.
fn every_buffer(comparison: &mut Comparison, random: &mut Random, asked: &Asked) {
    let due = due(asked);
    for room in [0, random.below(due), due - 1, due, due + random.between(1, 300)] {
        let seed = any_seed(random);
        comparison.generate(seed, asked, &mut old_bytes(random, room));
    }
}

/// Generate with a buffer that is long enough, and one that is not.
fn two_buffers(comparison: &mut Comparison, random: &mut Random, asked: &Asked) {
    let due = due(asked);
    for room in [due + random.below(2), random.below(due)] {
        let seed = any_seed(random);
        comparison.generate(seed, asked, &mut old_bytes(random, room));
    }
}

/// Generate of sizes that are right: it is done, and what is made has these sizes.
fn must_be_made(comparison: &mut Comparison, random: &mut Random, seed: u64, asked: &Asked) -> Vec<u8> {
    let mut buffer = old_bytes(random, due(asked));
    let answer = comparison.generate(seed, asked, &mut buffer);
    comparison.expect("generate of sizes that are right", answer, due(asked) as i32);
    comparison.expect("having the sizes asked for (1) or not (0)", has_sizes(&buffer, asked).into(), 1);
    buffer
}

/// The near limit is the number of slots.
fn has_sizes(bytes: &[u8], asked: &Asked) -> bool {
    read(bytes).is_ok_and(|picture| {
        Asked::of(&picture) == *asked && usize::from(picture.near_limit) == picture.slots.len()
    })
}

/// Sizes within the limits: mostly small ones, some of any size and some at all limits.
fn any_asked(random: &mut Random, round: usize) -> Asked {
    let block_size = random.between(1, MAX_BLOCK_SIZE);
    let most_blocks = FIRST.most_blocks(block_size);
    let sizes = |blocks: usize, endpoints: usize, links: usize, serving: usize| Asked {
        block_size: block_size as u32,
        blocks: blocks as u32,
        endpoints: endpoints as u32,
        links: links as u32,
        // Without an endpoint there is none to serve.
        serving: if endpoints == 0 { 0 } else { serving as u32 },
    };
    match round % 64 {
        0 => sizes(most_blocks, MAX_ENDPOINTS, MAX_LINKS, MAX_LINKS),
        1..=3 => sizes(
            random.between(1, most_blocks),
            random.between(0, MAX_ENDPOINTS),
            random.between(0, MAX_LINKS),
            random.between(0, MAX_LINKS),
        ),
        _ => sizes(
            random.between(1, most_blocks.min(4)),
            random.between(0, 6),
            random.below(24),
            random.below(24),
        ),
    }
}

/// Networks of every seed and of sizes that are right; the other calls take them too.
pub fn networks(comparison: &mut Comparison, random: &mut Random, count: usize) {
    for seed in SEEDS {
        for round in 0..8 {
            let asked = any_asked(random, round);
            must_be_made(comparison, random, seed, &asked);
        }
    }
    for round in 0..2 * count {
        let (seed, asked) = (any_seed(random), any_asked(random, round));
        let picture = must_be_made(comparison, random, seed, &asked);
        some_calls(comparison, random, &picture);
        every_buffer(comparison, random, &asked);
    }
}

const PLAIN: Asked = Asked { block_size: 2, blocks: 4, endpoints: 3, links: 6, serving: 5 };

// Around the limits, and numbers that fewer bits would cut to right ones.
const BLOCK_SIZES: [u32; 11] =
    [0, 1, 4, 15, 16, 16 + 4, 256 + 4, 65_536, 1 << 29 | 1, 1 << 31 | 4, u32::MAX];
const BLOCKS: [u32; 13] =
    [0, 1, 16, 59, 60, 61, 64 + 1, 256 + 4, 65_535, 65_536, 1 << 29 | 1, 1 << 31 | 1, u32::MAX];
const ENDPOINTS: [u32; 10] = [0, 1, 199, 200, 201, 255, 256, 256 + 3, 65_536 + 3, u32::MAX];
const LINKS: [u32; 10] = [0, 1, 1999, 2000, 2001, 4095, 4096, 4096 + 6, 65_536 + 6, u32::MAX];

/// Each limit and its neighbours, products that are one below and one above a limit or do not fit into
/// 32 bits, and sizes that fewer bits would cut to right ones.
pub fn limits(comparison: &mut Comparison, random: &mut Random, _: usize) {
    for block_size in (0..=MAX_BLOCK_SIZE as u32 + 2).chain(BLOCK_SIZES) {
        for blocks in (0..=MAX_BLOCKS as u32 + 2).chain(BLOCKS) {
            two_buffers(comparison, random, &Asked { block_size, blocks, ..PLAIN });
        }
    }
    for endpoints in (0..=260).chain(ENDPOINTS) {
        two_buffers(comparison, random, &Asked { endpoints, ..PLAIN });
        two_buffers(comparison, random, &Asked { endpoints, serving: 0, ..PLAIN });
    }
    for endpoints in ENDPOINTS {
        for links in LINKS {
            for serving in LINKS {
                two_buffers(comparison, random, &Asked { endpoints, links, serving, ..PLAIN });
            }
        }
    }
}

/// Sizes of the longest picture with some of them, or none, picked from around the limits.
pub fn several(comparison: &mut Comparison, random: &mut Random, count: usize) {
    for _ in 0..count.div_ceil(2) {
        let mut some = |usual: u32, others: &[u32]| match random.once_in(4) {
            true => *random.pick(others),
            false => usual,
        };
        let asked = Asked {
            block_size: some(4, &BLOCK_SIZES),
            blocks: some(60, &BLOCKS),
            endpoints: some(200, &ENDPOINTS),
            links: some(2000, &LINKS),
            serving: some(2000, &LINKS),
        };
        every_buffer(comparison, random, &asked);
    }
}
