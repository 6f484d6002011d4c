//! Evidence with other forests: valid ones from another maker, and ones that only look valid.

use peer::edition::{EDITIONS, MAX_BLOCK_SIZE, SECTION_HEAD_BYTES};
use peer::foreign::{self, GROWTHS};
use peer::networks::{dense_held, long_chain, Size};
use peer::pack;
use peer::picture::Picture;
use peer::random::Random;
use peer::refusals::FOREST;

use super::evidence::{entry, forest_start, get, random_fields, set};
use super::harness::Comparison;
use super::{any_network, canonical, every_call};

/// Foreign evidence as it is, which must pass, and then with forests or fields spoilt.
pub fn foreign(comparison: &mut Comparison, random: &mut Random, count: usize) {
    for round in 0..4 * count {
        let picture = any_network(random, round, 96);
        each_growth(comparison, random, &picture);
    }
}

fn each_growth(comparison: &mut Comparison, random: &mut Random, picture: &Picture) {
    for growth in GROWTHS {
        let evidence = foreign::evidence(random, picture, growth);
        let answer = comparison.check(&pack(picture), &evidence);
        comparison.expect("check of valid foreign evidence", answer, 0);
        spoilt(comparison, random, picture, &evidence);
    }
}

fn spoilt(comparison: &mut Comparison, random: &mut Random, picture: &Picture, evidence: &[u8]) {
    let bytes = pack(picture);
    let ways = [rehang, rehang, drop, copy_forest, shift_depths, hang_on_itself];
    for way in ways {
        let mut changed = evidence.to_vec();
        for _ in 0..random.between(1, 2) {
            let start = any_forest(random, picture, evidence);
            way(random, picture, &mut changed, start);
        }
        comparison.check(&bytes, &changed);
    }
    random_fields(comparison, random, picture, evidence, 2);
}

/// Where one of the forests starts.
fn any_forest(random: &mut Random, picture: &Picture, evidence: &[u8]) -> usize {
    forest_start(picture, random.below(usize::from(evidence[2]) + 1))
}

/// Chains through all slots that there may be, with and without links beside them: depths up to the
/// number of slots. Each parent and depth around 255 and at the end is spoilt in its high and low bits.
pub fn deep_chains(comparison: &mut Comparison, random: &mut Random, count: usize) {
    for _ in 0..count.div_ceil(2000) {
        for edition in EDITIONS {
            for block_size in [5, 8, MAX_BLOCK_SIZE] {
                let slots = block_size * edition.most_blocks(block_size);
                let mut picture = long_chain(edition, block_size, slots, 30);
                every_call(comparison, random, &pack(&picture));
                spoilt_depths(comparison, &picture);
                let back = |_| (random.between(1, slots) as u16, random.between(0, slots) as u16);
                picture.links.extend((0..2 * slots).map(back));
                each_growth(comparison, random, &picture);
            }
        }
    }
}

/// Flips that a field has no bit for leave the evidence as it is.
fn spoilt_depths(comparison: &mut Comparison, picture: &Picture) {
    let bytes = pack(picture);
    let evidence = canonical(&bytes).expect("networks are accepted");
    let slots = picture.slots.len();
    for slot in [1, 2, 44, 127, 128, 239, 240, 254, 255, 256, 257, 258, 300, slots - 1, slots] {
        if slot > slots {
            continue;
        }
        for section in [0, usize::from(evidence[2])] {
            for field in entry(picture, forest_start(picture, section), slot) {
                for flip in [1, 16, 128, 256, 2048] {
                    let mut changed = evidence.clone();
                    set(&mut changed, field, get(&evidence, field) ^ flip);
                    comparison.check(&bytes, &changed);
                }
            }
        }
    }
}

/// Dense networks of every block size with as many slots as it allows, and each section with one slot
/// at or beside an end of its block spoilt.
pub fn block_ends(comparison: &mut Comparison, random: &mut Random, count: usize) {
    // Each round the editions change places, so that each has every block size in two rounds.
    for round in 0..2 * count.div_ceil(4000) {
        for block_size in 1..=MAX_BLOCK_SIZE {
            let edition = EDITIONS[(round + block_size) % EDITIONS.len()];
            let slots = block_size * edition.most_blocks(block_size);
            let size = Size { edition, block_size, slots, endpoints: 30, links: 4 * slots, serving: 60 };
            let picture = dense_held(random, size);
            let bytes = pack(&picture);
            every_call(comparison, random, &bytes);
            let evidence = canonical(&bytes).expect("networks are accepted");
            for section in 1..=usize::from(evidence[2]) {
                spoilt_ends(comparison, &picture, &bytes, &evidence, section);
            }
        }
    }
}

/// An evicted slot is admitted, with its entry of the first forest, and a reached one is dropped.
fn spoilt_ends(
    comparison: &mut Comparison,
    picture: &Picture,
    bytes: &[u8],
    evidence: &[u8],
    section: usize,
) {
    let slots = picture.slots.len();
    let [first, start] = [0, section].map(|section| forest_start(picture, section));
    let block = picture.block_locations(usize::from(evidence[start - SECTION_HEAD_BYTES]));
    for slot in [block.start - 1, block.start, block.end - 1, block.end] {
        if slot == 0 || slot > slots || depth_of(picture, evidence, first, slot) == 0 {
            continue;
        }
        let mut changed = evidence.to_vec();
        if block.contains(&slot) {
            let there = entry(picture, first, slot).map(|field| get(evidence, field));
            set_entry(picture, &mut changed, start, slot, there);
        } else if depth_of(picture, evidence, start, slot) > 0 {
            set_entry(picture, &mut changed, start, slot, [0, 0]);
        } else {
            continue;
        }
        let answer = comparison.check(bytes, &changed);
        comparison.expect("check of a block's end spoilt", answer, -i32::from(FOREST));
    }
}

/// Parent and depth of a slot in the forest that starts at `start`.
fn set_entry(picture: &Picture, evidence: &mut [u8], start: usize, slot: usize, values: [u32; 2]) {
    for (field, value) in entry(picture, start, slot).into_iter().zip(values) {
        set(evidence, field, value);
    }
}

fn depth_of(picture: &Picture, evidence: &[u8], start: usize, location: usize) -> u32 {
    match location {
        0 => 0,
        _ => get(evidence, entry(picture, start, location)[1]),
    }
}

/// Hangs a slot on any location with a link to it: unreached, not held, evicted or below it too.
fn rehang(random: &mut Random, picture: &Picture, evidence: &mut [u8], start: usize) {
    if picture.links.is_empty() {
        return;
    }
    let (from, to) = *random.pick(&picture.links);
    if to == 0 {
        return;
    }
    let depth = depth_of(picture, evidence, start, usize::from(from)) + 1;
    set_entry(picture, evidence, start, usize::from(to), [from.into(), depth]);
}

/// Calls a slot unreached, with or without its parent.
fn drop(random: &mut Random, picture: &Picture, evidence: &mut [u8], start: usize) {
    let [parent, depth] = entry(picture, start, random.between(1, picture.slots.len()));
    set(evidence, depth, 0);
    if random.once_in(2) {
        set(evidence, parent, 0);
    }
}

/// Takes the forest of another section, in which another block is missing.
fn copy_forest(random: &mut Random, picture: &Picture, evidence: &mut [u8], start: usize) {
    let other = any_forest(random, picture, evidence);
    let bytes = picture.edition.forest_bytes(picture.slots.len());
    evidence.copy_within(other..other + bytes, start);
}

/// Sets every depth off by one: only the entries on the origin break the rule.
fn shift_depths(_: &mut Random, picture: &Picture, evidence: &mut [u8], start: usize) {
    for slot in 1..=picture.slots.len() {
        let [_, depth] = entry(picture, start, slot);
        match get(evidence, depth) {
            0 => {}
            old => set(evidence, depth, old + 1),
        }
    }
}

/// Names a slot its own parent, or one above the last slot.
fn hang_on_itself(random: &mut Random, picture: &Picture, evidence: &mut [u8], start: usize) {
    let slot = random.between(1, picture.slots.len());
    let parent = *random.pick(&[slot, picture.slots.len() + 1, 255, usize::MAX]) as u32;
    set_entry(picture, evidence, start, slot, [parent, random.below(3) as u32]);
}
