//! Lists to be written as a picture: right ones, ones around the limits, and ones with faults.

use peer::edition::{EDITIONS, FIRST, MAX_BLOCK_SIZE, MAX_LINKS, MAX_PICTURE_BYTES};
use peer::faults::{Fault, FAULTS};
use peer::networks::{any_edition, network, repeat_links, Size, SHAPES};
use peer::picture::Picture;
use peer::random::Random;
use peer::{lists_of, pack, read, refusals, samples, Edition, Lists};

use super::harness::Comparison;
use super::old_bytes;
use super::raw::{Header, Raw};

/// Longer than any picture.
const ROOM: usize = MAX_PICTURE_BYTES + 11;
/// More rows than 16 bits can count.
const VERY_LONG: usize = 70_000;

/// The length of the picture of lists that are right, and a fit length for others.
fn due(lists: &Lists) -> usize {
    let edition = Edition::of(lists.edition).unwrap_or(FIRST);
    let (links, serving) = (lists.links.len(), lists.serving.len());
    edition.picture_bytes(lists.states.len(), lists.weights.len(), links, serving).min(ROOM)
}

/// Any near limit that the header has room for.
fn near_limit(random: &mut Random, edition: Edition) -> u16 {
    random.draw() as u16 & edition.max_near_limit()
}

/// Write with every kind of buffer.
fn every_buffer(comparison: &mut Comparison, random: &mut Random, lists: &Lists) {
    let due = due(lists);
    for room in [0, random.below(due), due - 1, due, due + random.between(1, 300)] {
        comparison.write(lists, &mut old_bytes(random, room));
    }
}

/// Write with a buffer that is just long enough, and one that is not.
fn two_buffers(comparison: &mut Comparison, random: &mut Random, lists: &Lists) {
    let short = random.below(due(lists));
    for room in [due(lists), short] {
        comparison.write(lists, &mut old_bytes(random, room));
    }
}

/// Write of lists that are right: it is done, and what is written reads back to them.
fn must_be_written(comparison: &mut Comparison, random: &mut Random, lists: &Lists) -> Vec<u8> {
    let mut buffer = old_bytes(random, due(lists));
    let answer = comparison.write(lists, &mut buffer);
    comparison.expect("write of lists that are right", answer, due(lists) as i32);
    let is_same = read(&buffer).is_ok_and(|picture| lists_of(&picture) == *lists);
    comparison.expect("reading back to the same lists (1) or not (0)", is_same.into(), 1);
    buffer
}

fn any_network(random: &mut Random, round: usize) -> Picture {
    let size = match round % 64 {
        0 => Size::full(random),
        1..=3 => Size::any(random),
        4 | 5 => Size::beyond_first(random),
        _ => Size::small(random),
    };
    let shape = *random.pick(&SHAPES);
    let mut picture = network(random, shape, size);
    if round % 64 == 0 {
        repeat_links(random, &mut picture);
    }
    picture.near_limit = near_limit(random, picture.edition);
    picture
}

/// Networks of every shape, some of them of any size and some at all limits.
pub fn networks(comparison: &mut Comparison, random: &mut Random, count: usize) {
    for round in 0..2 * count {
        let lists = lists_of(&any_network(random, round));
        must_be_written(comparison, random, &lists);
        every_buffer(comparison, random, &lists);
    }
}

fn plain(edition: Edition) -> Size {
    Size { edition, block_size: 2, slots: 8, endpoints: 3, links: 6, serving: 5 }
}

/// Lists of these lengths, right or not, with values that fit them.
fn lists_to(random: &mut Random, size: Size) -> Lists {
    let most = size.slots.min(size.edition.max_slots);
    let location = |random: &mut Random| random.between(0, most) as u16;
    let endpoint = |random: &mut Random| random.between(1, size.endpoints.clamp(1, 200)) as u16;
    Lists {
        edition: size.edition.number.into(),
        block_size: size.block_size as u32,
        near_limit: near_limit(random, size.edition),
        states: (0..size.slots).map(|_| random.below(3) as u8).collect(),
        near: (0..size.slots).map(|_| random.once_in(2)).collect(),
        weights: (0..size.endpoints).map(|_| random.draw() as u16).collect(),
        protected: (0..size.endpoints).map(|_| random.once_in(2)).collect(),
        links: (0..size.links).map(|_| [location(random), location(random)]).collect(),
        serving: (0..size.serving).map(|_| [location(random), endpoint(random)]).collect(),
    }
}

fn of_size(comparison: &mut Comparison, random: &mut Random, size: Size) {
    let lists = lists_to(random, size);
    two_buffers(comparison, random, &lists);
}

/// Each limit and its neighbours, numbers that a field of the picture would cut to right ones, very
/// long lists, and several of them together.
pub fn limits(comparison: &mut Comparison, random: &mut Random, count: usize) {
    for plain in EDITIONS.map(plain) {
        for block_size in 0..=17 {
            for slots in 0..=plain.edition.max_slots + 20 {
                of_size(comparison, random, Size { block_size, slots, ..plain });
            }
        }
        for block_size in BLOCK_SIZES {
            for slots in SLOTS {
                of_size(comparison, random, Size { block_size, slots, ..plain });
            }
        }
        for endpoints in (0..=260).chain(ENDPOINTS) {
            of_size(comparison, random, Size { endpoints, ..plain });
        }
        for links in LINKS {
            for serving in LINKS {
                of_size(comparison, random, Size { links, serving, ..plain });
            }
        }
    }
    for _ in 0..count.div_ceil(8) {
        let size = limit_sizes(random);
        of_size(comparison, random, size);
    }
}

const BLOCK_SIZES: [usize; 10] =
    [1, 4, 8, 15, 16, 16 + 4, 256 + 4, 65_536 + 4, 1 << 31 | 4, u32::MAX as usize];
const SLOTS: [usize; 19] = [
    0,
    1,
    4,
    60,
    61,
    64,
    240,
    241,
    244,
    248,
    300,
    305,
    320,
    321,
    328,
    256 + 240,
    4096 + 240,
    65_536 + 240,
    VERY_LONG,
];
const ENDPOINTS: [usize; 6] = [0, 200, 201, 256 + 200, 65_536 + 200, VERY_LONG];
const LINKS: [usize; 9] =
    [0, 1, MAX_LINKS - 1, MAX_LINKS, MAX_LINKS + 1, 4095, 4096 + 6, 65_536 + 6, VERY_LONG];

/// Forty blocks are as many slots as there may be in either edition, where nothing else is picked.
fn limit_sizes(random: &mut Random) -> Size {
    let edition = any_edition(random);
    let mut some = |usual: usize, others: &[usize]| match random.once_in(3) {
        true => *random.pick(others),
        false => usual,
    };
    Size {
        edition,
        block_size: some(edition.max_slots / 40, &BLOCK_SIZES),
        slots: some(edition.max_slots, &SLOTS),
        endpoints: some(200, &ENDPOINTS),
        links: some(MAX_LINKS, &LINKS),
        serving: some(MAX_LINKS, &LINKS),
    }
}

const NUMBERS: [u32; 18] = [
    0,
    1,
    2,
    3,
    4,
    15,
    16 + 1,
    16 + 2,
    255,
    256 + 1,
    256 + 2,
    65_536 + 1,
    65_536 + 2,
    1 << 24 | 1,
    1 << 24 | 2,
    1 << 31 | 1,
    1 << 31 | 2,
    u32::MAX,
];
const NEAR_LIMITS: [u16; 16] =
    [0, 1, 254, 255, 256, 257, 300, 511, 512, 4094, 4095, 4096, 4096 + 1, 32_768 | 2, 65_534, u16::MAX];

/// Editions that there are and are not with near limits that fit their headers and do not: networks,
/// the samples and what both editions have no room for, alone and with other faults.
pub fn editions(comparison: &mut Comparison, random: &mut Random, count: usize) {
    for near_limit in 0..=u16::MAX {
        let edition = u32::from(random.pick(&EDITIONS).number);
        let lists = Lists { edition, near_limit, ..lists_of(&samples::case_a()) };
        written_or_refused(comparison, random, &lists);
    }
    let samples = samples::small().into_iter().chain(samples::long());
    let networks = (0..count.div_ceil(128)).map(|round| any_network(random, round));
    let pictures: Vec<Picture> = samples.chain(networks).collect();
    for right in pictures.iter().map(lists_of) {
        for edition in NUMBERS {
            for near_limit in NEAR_LIMITS {
                let mut lists = Lists { edition, near_limit, ..right.clone() };
                written_or_refused(comparison, random, &lists);
                add_faults(random, &mut lists, 8);
                exact_buffer(comparison, random, &lists);
            }
        }
    }
}

/// Lists that are right but for what the edition has no number or no room for.
fn written_or_refused(comparison: &mut Comparison, random: &mut Random, lists: &Lists) {
    let due = match Edition::of(lists.edition) {
        Err(number) => -i32::from(number),
        Ok(edition) => {
            let fits =
                lists.states.len() <= edition.max_slots && lists.near_limit <= edition.max_near_limit();
            if fits {
                must_be_written(comparison, random, lists);
                return;
            }
            -i32::from(refusals::BLOCKS)
        }
    };
    let answer = comparison.write(lists, &mut old_bytes(random, ROOM));
    comparison.expect("write of what has no room", answer, due);
}

/// A column of a list.
#[derive(Clone, Copy)]
enum Column {
    States,
    Near,
    Weights,
    Protected,
}

const COLUMNS: [Column; 4] = [Column::States, Column::Near, Column::Weights, Column::Protected];

fn length_of(lists: &Lists, column: Column) -> usize {
    match column {
        Column::States | Column::Near => lists.states.len(),
        Column::Weights | Column::Protected => lists.weights.len(),
    }
}

fn set_length(lists: &mut Lists, column: Column, length: usize) {
    match column {
        Column::States => lists.states.resize(length, 0),
        Column::Near => lists.near.resize(length, true),
        Column::Weights => lists.weights.resize(length, 1),
        Column::Protected => lists.protected.resize(length, true),
    }
}

/// One column of a list shorter or longer than the other, alone and with other faults.
pub fn unequal_columns(comparison: &mut Comparison, random: &mut Random, _: usize) {
    for sample in samples::small().into_iter().chain(samples::long()) {
        let right = lists_of(&sample);
        for column in COLUMNS {
            let length = length_of(&right, column);
            let half = length / 2;
            let longer = [1, 2, 256, 65_536].map(|more| length + more);
            for length in [0, half, length.saturating_sub(1), VERY_LONG].into_iter().chain(longer) {
                let mut lists = right.clone();
                set_length(&mut lists, column, length);
                two_buffers(comparison, random, &lists);
                add_faults(random, &mut lists, 2);
                two_buffers(comparison, random, &lists);
            }
        }
    }
}

/// Each kind of fault once in so many times.
fn add_faults(random: &mut Random, lists: &mut Lists, of: usize) {
    for fault in FAULTS.into_iter().chain([too_many as Fault]) {
        if random.once_in(of) {
            fault(random, lists);
        }
    }
}

/// More endpoints, links or serving links than there may be.
fn too_many(random: &mut Random, lists: &mut Lists) {
    match random.below(16) {
        0 => lists.links.resize(MAX_LINKS + 1, [0, 1]),
        1 => lists.serving.resize(MAX_LINKS + 1, [0, 1]),
        2 => {
            lists.weights.resize(201, 1);
            lists.protected.resize(201, true);
        }
        _ => {}
    }
}

/// Every row of a short list, the first, middle and last of a long one.
fn rows_to_try(count: usize) -> Vec<usize> {
    match count {
        0..=100 => (0..count).collect(),
        _ => vec![0, count / 2, count - 1],
    }
}

fn exact_buffer(comparison: &mut Comparison, random: &mut Random, lists: &Lists) {
    comparison.write(lists, &mut old_bytes(random, due(lists)));
}

/// Every state, at the ends of links the numbers around the limits and those whose low bits are
/// right, also where there are no endpoints, and every number of 16 bits somewhere in case A, of one
/// edition or the other.
pub fn values(comparison: &mut Comparison, random: &mut Random, _: usize) {
    for sample in samples::small().into_iter().chain(samples::long()) {
        let right = lists_of(&sample);
        for row in rows_to_try(right.states.len()) {
            let mut lists = right.clone();
            for state in 0..=255 {
                lists.states[row] = state;
                exact_buffer(comparison, random, &lists);
            }
        }
        each_end(comparison, random, &right, |lists| &mut lists.links);
        each_end(comparison, random, &right, |lists| &mut lists.serving);
        let no_endpoints = Lists { weights: Vec::new(), protected: Vec::new(), ..right };
        each_end(comparison, random, &no_endpoints, |lists| &mut lists.serving);
    }
    for value in 0..=u16::MAX {
        let mut lists = lists_of(random.pick(&[samples::case_a(), samples::second()]));
        let links = match random.once_in(2) {
            true => &mut lists.links,
            false => &mut lists.serving,
        };
        links[random.below(3)][random.below(2)] = value;
        exact_buffer(comparison, random, &lists);
    }
}

type Links = fn(&mut Lists) -> &mut Vec<[u16; 2]>;

fn each_end(comparison: &mut Comparison, random: &mut Random, right: &Lists, links: Links) {
    let mut lists = right.clone();
    let count = links(&mut lists).len();
    for row in rows_to_try(count) {
        for end in 0..2 {
            let old = links(&mut lists)[row][end];
            for value in ends(right) {
                links(&mut lists)[row][end] = value;
                exact_buffer(comparison, random, &lists);
            }
            links(&mut lists)[row][end] = old;
        }
    }
}

fn ends(lists: &Lists) -> [u16; 16] {
    let (slots, endpoints) = (lists.states.len() as u16, lists.weights.len() as u16);
    [
        0,
        1,
        slots,
        slots + 1,
        endpoints,
        endpoints + 1,
        255,
        256,
        256 + 1,
        256 + slots,
        256 + endpoints,
        1 << 12 | 1,
        1 << 12 | slots,
        4095,
        0xFF00 | 1,
        u16::MAX,
    ]
}

/// Networks with some faults at once, so that their order shows.
pub fn damaged(comparison: &mut Comparison, random: &mut Random, count: usize) {
    for round in 0..2 * count {
        let right = lists_of(&any_network(random, round));
        for of in [2, 4, 8] {
            let mut lists = right.clone();
            add_faults(random, &mut lists, of);
            two_buffers(comparison, random, &lists);
        }
    }
}

/// Accepted pictures, read and written: each must come back as its own bytes.
pub fn there_and_back(comparison: &mut Comparison, random: &mut Random, count: usize) {
    for (_, picture) in samples::files() {
        comes_back(comparison, random, &picture);
    }
    for round in 0..count {
        let picture = pack(&any_network(random, round));
        comes_back(comparison, random, &picture);
        let raw = Raw::to(any_header(random), random);
        comes_back(comparison, random, &raw.bytes());
    }
}

fn comes_back(comparison: &mut Comparison, random: &mut Random, picture: &[u8]) {
    if let Ok(read) = read(picture) {
        let written = must_be_written(comparison, random, &lists_of(&read));
        comparison.expect("its own bytes again (1) or not (0)", (written == picture).into(), 1);
    }
}

/// Sizes of chance, which most of the time are a picture's.
fn any_header(random: &mut Random) -> Header {
    let (edition, block_size) = (any_edition(random), random.between(1, MAX_BLOCK_SIZE));
    Header {
        edition: edition.number.into(),
        block_size: block_size as u32,
        slots: (block_size * random.between(1, edition.max_slots / MAX_BLOCK_SIZE)) as u32,
        near_limit: near_limit(random, edition).into(),
        endpoints: random.between(1, 20) as u32,
        links: random.below(40) as u32,
        serving: random.below(40) as u32,
    }
}
