//! The groups of inputs, and what each accepted or refused picture is put through.

mod acts;
mod evidence;
mod forests;
mod generate;
pub mod harness;
mod lists;
mod networks;
mod pictures;
mod price;
mod raw;
mod ties;
mod watch;

use harness::Comparison;
use peer::calls::{no_blocks, Call, ACTS};
use peer::choice::Plan;
use peer::edition::MAX_EVIDENCE_BYTES;
use peer::networks::{network, Size, SHAPES};
use peer::picture::Picture;
use peer::random::Random;

/// Longer than any evidence.
const ROOM: usize = MAX_EVIDENCE_BYTES + 11;

type Group = fn(&mut Comparison, &mut Random, usize);

pub const ALL: [(&str, Group); 48] = [
    ("truncations of the samples", pictures::truncations),
    ("bit flips of the samples", pictures::bit_flips),
    ("wrong ends of links", pictures::wrong_ends),
    ("header fields, each value", pictures::header_fields),
    ("limits and one more", pictures::limits),
    ("damaged pictures", pictures::damaged),
    ("random bytes as pictures", pictures::random_bytes),
    ("networks: small", networks::small),
    ("networks: dense", networks::dense),
    ("networks: chains", networks::chains),
    ("networks: cycles", networks::cycles),
    ("networks: stars", networks::stars),
    ("networks: flat", networks::flat),
    ("networks: unreached", networks::unreached),
    ("networks: repeated links", networks::repeated),
    ("networks: layers", networks::layers),
    ("networks: full size", networks::full),
    ("networks: every block size", networks::block_sizes),
    ("networks: beyond 240 slots", networks::beyond_first),
    ("ties: small", ties::small),
    ("ties: large", ties::large),
    ("evidence of the samples", evidence::of_samples),
    ("evidence, fields", evidence::fields),
    ("evidence, lengths and pictures", evidence::strangers),
    ("evidence of the other edition", evidence::other_edition),
    ("evidence, foreign", forests::foreign),
    ("evidence, ends of blocks", forests::block_ends),
    ("evidence, deep chains", forests::deep_chains),
    ("near limits", acts::near_limits),
    ("endpoints that wait for a reload", acts::waiting_endpoints),
    ("lists of calls: short", acts::short_lists),
    ("lists of calls: long", acts::long_lists),
    ("lists: networks", lists::networks),
    ("lists: editions and near limits", lists::editions),
    ("lists: limits and one more", lists::limits),
    ("lists: unequal columns", lists::unequal_columns),
    ("lists: each value", lists::values),
    ("lists: several faults", lists::damaged),
    ("lists: there and back", lists::there_and_back),
    ("generate: networks", generate::networks),
    ("generate: limits and one more", generate::limits),
    ("generate: several faults", generate::several),
    ("price: flat networks", price::flat_networks),
    ("price: links from elsewhere", price::elsewhere),
    ("price: each value", price::values),
    ("price: limits and one more", price::limits),
    ("price: several faults", price::several),
    ("price: damaged pictures", price::damaged),
];

/// A network of any shape, mostly a small one.
fn any_network(random: &mut Random, round: usize, of: usize) -> Picture {
    let shape = *random.pick(&SHAPES);
    let size = mostly_small(random, round, of);
    network(random, shape, size)
}

/// Once in `of` rounds any size and, half way between these, one with more slots than the first edition
/// has; else a small one.
fn mostly_small(random: &mut Random, round: usize, of: usize) -> Size {
    match round % of {
        0 => Size::any(random),
        place if place == of / 2 => Size::beyond_first(random),
        _ => Size::small(random),
    }
}

/// A buffer with old bytes of chance, so that a bit which is not written shows.
fn old_bytes(random: &mut Random, room: usize) -> Vec<u8> {
    (0..room).map(|_| random.byte()).collect()
}

/// The canonical evidence, or nothing if the picture is refused.
fn canonical(picture: &[u8]) -> Option<Vec<u8>> {
    let plan = Plan::of(&peer::read(picture).ok()?);
    Some(plan.evidence(plan.least()))
}

/// Choose with every kind of buffer, and the check of what it wrote.
fn choose_and_check(comparison: &mut Comparison, random: &mut Random, picture: &[u8]) {
    match canonical(picture) {
        None => {
            for room in [0, 43, ROOM] {
                comparison.choose(picture, room);
            }
            comparison.check(picture, &[]);
            comparison.check(picture, &peer::samples::A_EVIDENCE);
        }
        Some(evidence) => {
            let length = evidence.len();
            for room in [0, random.below(length), length - 1] {
                comparison.choose(picture, room);
            }
            for room in [length, length + random.between(1, 300)] {
                comparison.choose(picture, room);
            }
            let answer = comparison.check(picture, &evidence);
            comparison.expect("check of the canonical evidence", answer, 0);
        }
    }
}

/// Each act on these blocks, each time on the same picture.
fn all_acts(comparison: &mut Comparison, picture: &[u8], blocks: impl Iterator<Item = u32>) {
    for block in blocks {
        for act in ACTS {
            comparison.act(&Call { act, block }, &mut picture.to_vec());
        }
    }
}

/// Every call on one picture that need not be an accepted one, with all its blocks.
fn every_call(comparison: &mut Comparison, random: &mut Random, picture: &[u8]) {
    choose_and_check(comparison, random, picture);
    let blocks = peer::read(picture).map_or(2, |picture| picture.block_count() as u32);
    let outside = no_blocks(random, blocks);
    all_acts(comparison, picture, (0..blocks).chain(outside));
    price::any(comparison, random, picture);
}

/// A few calls on one picture, where there are many pictures.
fn some_calls(comparison: &mut Comparison, random: &mut Random, picture: &[u8]) {
    let room = canonical(picture).map_or(43, |evidence| evidence.len());
    comparison.choose(picture, room);
    comparison.check(picture, &canonical(picture).unwrap_or_default());
    let block = random.below(4) as u32;
    comparison.act(&Call { act: *random.pick(&ACTS), block }, &mut picture.to_vec());
    price::any(comparison, random, picture);
}
