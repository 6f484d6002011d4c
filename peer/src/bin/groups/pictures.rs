//! Pictures that keep the layout, nearly keep it, or do not keep it at all.

use peer::calls::{Call, ACTS};
use peer::edition::{EDITIONS, MAX_BLOCK_SIZE};
use peer::networks::any_edition;
use peer::random::Random;
use peer::{faults, lists_of, pack, samples, Edition};

use super::harness::Comparison;
use super::raw::{Header, Raw};
use super::{any_network, canonical, every_call, some_calls};

/// Every sample cut off after every byte, and whole.
pub fn truncations(comparison: &mut Comparison, random: &mut Random, _: usize) {
    for sample in samples::small() {
        let bytes = pack(&sample);
        for length in 0..=bytes.len() {
            every_call(comparison, random, &bytes[..length]);
        }
    }
}

/// Every sample with every single bit turned; the evidence is its own and the sample's.
pub fn bit_flips(comparison: &mut Comparison, random: &mut Random, _: usize) {
    for sample in samples::small() {
        let bytes = pack(&sample);
        let evidence = canonical(&bytes).expect("the samples are accepted");
        for bit in 0..8 * bytes.len() {
            let mut turned = bytes.clone();
            turned[bit / 8] ^= 0x80 >> (bit % 8);
            every_call(comparison, random, &turned);
            comparison.check(&turned, &evidence);
        }
    }
}

/// Every sample with one number in its links and serving links wrong, or two, in every call.
pub fn wrong_ends(comparison: &mut Comparison, _: &mut Random, _: usize) {
    for sample in samples::small() {
        for (number, picture) in faults::wrong_ends(&sample) {
            let mut bytes = pack(&picture);
            let mut answers = vec![
                comparison.choose(&bytes, 43),
                comparison.check(&bytes, &samples::A_EVIDENCE),
                comparison.write(&lists_of(&picture), &mut bytes.clone()),
                comparison.price(&bytes, &[0], &mut []),
            ];
            answers.extend(ACTS.map(|act| comparison.act(&Call { act, block: 0 }, &mut bytes)));
            for answer in answers {
                comparison.expect("a call on wrong links", answer, -i32::from(number));
            }
        }
    }
}

/// A body of the header's length, one byte less and one more, and a header that is not followed.
fn around(comparison: &mut Comparison, random: &mut Random, header: Header) {
    let mut raw = Raw::to(header, random);
    let bytes = raw.bytes();
    some_calls(comparison, random, &bytes);
    some_calls(comparison, random, &bytes[..bytes.len() - 1]);
    raw.tail = vec![0];
    some_calls(comparison, random, &raw.bytes());
    let mut alone = Raw::to(Header::plain(raw.layout), random);
    alone.header = header;
    some_calls(comparison, random, &alone.bytes());
}

/// The header of each edition with every edition's number, every pair of block size and slots, every
/// count of endpoints, and near limits.
pub fn header_fields(comparison: &mut Comparison, random: &mut Random, _: usize) {
    for edition in EDITIONS {
        let plain = Header::plain(edition);
        each_number(comparison, random, plain);
        for block_size in 0..16 {
            for slots in values_of_location(edition) {
                around(comparison, random, Header { block_size, slots, ..plain });
            }
        }
        for endpoints in 0..256 {
            around(comparison, random, Header { endpoints, ..plain });
        }
        for near_limit in values_of_location(edition) {
            around(comparison, random, Header { near_limit, ..plain });
        }
    }
}

/// Every number of an edition over the same layout, whole and cut off around the ends of the headers.
fn each_number(comparison: &mut Comparison, random: &mut Random, plain: Header) {
    for edition in 0..16 {
        around(comparison, random, Header { edition, ..plain });
        let mut raw = Raw::to(plain, random);
        raw.header.edition = edition;
        let bytes = raw.bytes();
        for length in (5..=10).chain([bytes.len() - 1, bytes.len()]) {
            every_call(comparison, random, &bytes[..length]);
        }
    }
}

/// Every value that a field of the width of a location can have or, where these are many, those to
/// beyond the limit and some of the rest.
fn values_of_location(edition: Edition) -> impl Iterator<Item = u32> {
    let (all, near) = (1 << edition.location_width, 340);
    let rest =
        (near..all).filter(move |value| value % 203 == 0 || (value & 255) == 8 || value + 1 == all);
    (0..near.min(all)).chain(rest)
}

/// Block sizes with the most slots that there may be, one more, and a block more.
fn most_blocks(edition: Edition) -> Vec<(u32, u32)> {
    let most = |block_size: usize| (block_size * edition.most_blocks(block_size)) as u32;
    let sizes = [1, 4, 5, 8, 10, MAX_BLOCK_SIZE].into_iter();
    let around = |size: u32, most: u32| [(size, most), (size, most + 1), (size, most + size)];
    sizes.flat_map(|size| around(size as u32, most(size))).collect()
}

/// Each limit, its neighbours and the ends of its field, and several of them together.
pub fn limits(comparison: &mut Comparison, random: &mut Random, _: usize) {
    for edition in EDITIONS {
        let plain = Header::plain(edition);
        let counts = [0, 1, 1999, 2000, 2001, 2048, 4095];
        for links in counts {
            for serving in counts {
                around(comparison, random, Header { links, serving, ..plain });
            }
            for endpoints in [0, 200, 201, 255] {
                around(comparison, random, Header { endpoints, links, ..plain });
                around(comparison, random, Header { endpoints, serving: links, ..plain });
            }
        }
        for (block_size, slots) in most_blocks(edition) {
            for (endpoints, links) in [(200, 2000), (201, 2000), (200, 2001), (0, 2000)] {
                let sizes = Header { block_size, slots, endpoints, links, serving: links, ..plain };
                around(comparison, random, sizes);
                around(comparison, random, Header { edition: 3, ..sizes });
            }
        }
    }
}

/// Accepted pictures with bytes changed, with another length, or with some fields wrong.
pub fn damaged(comparison: &mut Comparison, random: &mut Random, count: usize) {
    for round in 0..4 * count {
        let picture = any_network(random, round, 32);
        let bytes = pack(&picture);
        let evidence = canonical(&bytes).expect("networks are accepted");
        for _ in 0..2 {
            for damaged in [bytes_changed(random, &bytes), length_changed(random, &bytes)] {
                some_calls(comparison, random, &damaged);
                comparison.check(&damaged, &evidence);
            }
            let mut raw = Raw::of(&picture);
            raw.damage(random);
            some_calls(comparison, random, &raw.bytes());
            let cut = raw.bytes().len() - random.below(4);
            some_calls(comparison, random, &raw.bytes()[..cut]);
        }
    }
}

pub fn bytes_changed(random: &mut Random, bytes: &[u8]) -> Vec<u8> {
    let mut changed = bytes.to_vec();
    for _ in 0..random.between(1, 4) {
        let place = random.below(changed.len());
        changed[place] = match random.below(3) {
            0 => random.byte(),
            1 => changed[place] ^ 1 << random.below(8),
            _ => *random.pick(&[0, 255]),
        };
    }
    changed
}

pub fn length_changed(random: &mut Random, bytes: &[u8]) -> Vec<u8> {
    let mut changed = bytes.to_vec();
    match random.below(3) {
        0 => changed.truncate(random.below(bytes.len())),
        1 => changed.truncate(bytes.len() - 1),
        _ => changed.extend((0..random.between(1, 40)).map(|_| 0)),
    }
    changed
}

/// Bytes of chance, some behind a header that is right, and very long ones.
pub fn random_bytes(comparison: &mut Comparison, random: &mut Random, count: usize) {
    for round in 0..10 * count {
        let length = if round % 500 == 0 { random.below(80_000) } else { random.below(120) };
        let mut bytes: Vec<u8> = (0..length).map(|_| random.byte()).collect();
        let header = small_header(random);
        match random.below(3) {
            0 => {}
            1 => lay_over(&mut bytes, &Raw::bare(header).bytes()),
            _ => bytes = random_body(random, header),
        }
        some_calls(comparison, random, &bytes);
        comparison.check(&bytes, &samples::A_EVIDENCE);
        comparison.check(&bytes, &samples::SECOND_EVIDENCE);
        comparison.act(&Call { act: *random.pick(&ACTS), block: u32::MAX }, &mut bytes);
    }
}

/// Few slots, endpoints and links.
fn small_header(random: &mut Random) -> Header {
    Header {
        block_size: 1,
        slots: random.between(1, 6) as u32,
        near_limit: random.byte().into(),
        endpoints: random.below(4) as u32,
        links: random.below(3) as u32,
        serving: random.below(3) as u32,
        ..Header::plain(any_edition(random))
    }
}

/// The header but for its numbers of links, the last three bytes, over the first bytes.
fn lay_over(bytes: &mut [u8], header: &[u8]) {
    let place = (header.len() - 3).min(bytes.len());
    bytes[..place].copy_from_slice(&header[..place]);
}

/// The header, and a random body of the length that it says.
fn random_body(random: &mut Random, header: Header) -> Vec<u8> {
    let mut bytes = Raw::bare(header).bytes();
    let body = Raw::to(header, random).bytes().len() - bytes.len();
    bytes.extend((0..body).map(|_| random.byte() & random.byte()));
    bytes
}
