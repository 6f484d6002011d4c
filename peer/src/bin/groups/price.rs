//! Pricing by traffic records: flat networks with right records and every kind of buffer, links that start
//! elsewhere, records at and beyond their limits, and several faults at once.

use peer::edition::{FIRST, MAX_BLOCKS, MAX_ENDPOINTS};
use peer::networks::{any_edition, flat, Size};
use peer::picture::{Picture, State};
use peer::price::{any_records, is_flat, pack_records, Record, MAX_RECORDS, RECORD_BYTES};
use peer::random::Random;
use peer::{pack, read, refusals, samples};

use super::harness::Comparison;
use super::pictures::{bytes_changed, length_changed};
use super::{any_network, old_bytes};

/// Buffers for counters: none, one too few, just enough, and more.
const ROOMS: [usize; 5] = [0, MAX_BLOCKS - 1, MAX_BLOCKS, MAX_BLOCKS + 1, 100];

/// What price is handed but for the buffer.
struct Inputs<'i> {
    picture: &'i [u8],
    records: &'i [u8],
}

impl Inputs<'_> {
    /// Prices over so many old counters of chance. Where it is done, the counters must be what the
    /// request says; the others, and all where it is not, must stay.
    fn price(&self, comparison: &mut Comparison, random: &mut Random, room: usize) -> i32 {
        let old: Vec<u32> = (0..room).map(|_| random.draw() as u32).collect();
        let mut counters = old.clone();
        let answer = comparison.price(self.picture, self.records, &mut counters);
        let written = if answer == 0 { MAX_BLOCKS.min(room) } else { 0 };
        if answer == 0 {
            comparison.expect_priced(self.picture, self.records, &counters[..written]);
        }
        let is_kept = counters[written..] == old[written..];
        comparison.expect("keeping the other counters (1) or not (0)", is_kept.into(), 1);
        answer
    }

    /// `number` is that of the refusal that is due, or 0 where only the buffer can be at fault.
    fn must_answer(&self, comparison: &mut Comparison, random: &mut Random, room: usize, number: u8) {
        let answer = self.price(comparison, random, room);
        let due = match number {
            0 if room < MAX_BLOCKS => refusals::BUFFER,
            _ => number,
        };
        comparison.expect("price of records that are right or wrong", answer, -i32::from(due));
    }

    fn every_buffer(&self, comparison: &mut Comparison, random: &mut Random, number: u8) {
        for room in ROOMS {
            self.must_answer(comparison, random, room, number);
        }
    }

    /// With any kind of buffer, mostly one that has just enough room.
    fn any_buffer(&self, comparison: &mut Comparison, random: &mut Random) {
        let any = *random.pick(&ROOMS);
        let room = *random.pick(&[any, MAX_BLOCKS, MAX_BLOCKS, MAX_BLOCKS]);
        self.price(comparison, random, room);
    }
}

/// Records of chance on a picture of any bytes.
pub fn any(comparison: &mut Comparison, random: &mut Random, picture: &[u8]) {
    let endpoints = read(picture).map_or(2, |picture| picture.endpoints.len());
    let records = some_records(random, endpoints);
    Inputs { picture, records: &records }.any_buffer(comparison, random);
}

/// Up to some tens of records, or none; once in four times each endpoint has one besides.
fn some_records(random: &mut Random, endpoints: usize) -> Vec<u8> {
    let most = *random.pick(&[0, 1, 6, 6, 80]);
    let count = random.between(0, most);
    let mut records = any_records(random, endpoints, count);
    if random.once_in(4) {
        let of = |endpoint| Record { endpoint, weight: random.draw() as u16 };
        records.extend((1..=endpoints as u8).map(of));
        random.shuffle(&mut records);
    }
    pack_records(&records)
}

/// Mostly small ones, some of any size and some at all limits.
fn any_flat(random: &mut Random, round: usize) -> Picture {
    let size = match round % 64 {
        0 => Size::full(random),
        1..=3 => Size::any(random),
        4 | 5 => Size::beyond_first(random),
        6..=20 => Size::middle(random),
        _ => Size::small(random),
    };
    flat(random, size)
}

/// Records that are right but for the picture, with every kind of buffer.
fn with_records(comparison: &mut Comparison, random: &mut Random, picture: &Picture, number: u8) {
    let records = some_records(random, picture.endpoints.len());
    Inputs { picture: &pack(picture), records: &records }.every_buffer(comparison, random, number);
}

/// Flat networks of every size.
pub fn flat_networks(comparison: &mut Comparison, random: &mut Random, count: usize) {
    for round in 0..2 * count {
        let picture = any_flat(random, round);
        with_records(comparison, random, &picture, 0);
    }
}

/// Networks of every shape, and flat ones with a link or some that start elsewhere.
pub fn elsewhere(comparison: &mut Comparison, random: &mut Random, count: usize) {
    for round in 0..count {
        let picture = any_network(random, round, 64);
        let number = if is_flat(&picture) { 0 } else { refusals::LINK_START };
        with_records(comparison, random, &picture, number);
        let mut picture = any_flat(random, round);
        start_elsewhere(random, &mut picture);
        with_records(comparison, random, &picture, refusals::LINK_START);
    }
}

/// One link or, rarely, more; a picture without links gets one. Their slots are made to have one state in
/// half of the networks.
fn start_elsewhere(random: &mut Random, picture: &mut Picture) {
    let slots = picture.slots.len();
    if picture.links.is_empty() {
        picture.links.push((0, random.between(0, slots) as u16));
    }
    let more = random.below(picture.links.len().min(4));
    let state = *random.pick(&[State::Held, State::Recoverable, State::Freed]);
    let is_one_state = random.once_in(2);
    for _ in 0..=*random.pick(&[0, 0, more]) {
        let link = random.below(picture.links.len());
        let from = random.between(1, slots);
        picture.links[link].0 = from as u16;
        if is_one_state {
            picture.slots[from - 1].state = state;
        }
    }
}

const PLAIN: Size =
    Size { edition: FIRST, block_size: 2, slots: 8, endpoints: 3, links: 12, serving: 9 };

/// Every number of an endpoint, and every byte of a weight.
pub fn values(comparison: &mut Comparison, random: &mut Random, _: usize) {
    for endpoints in [0, 1, 2, 127, 128, 199, MAX_ENDPOINTS] {
        each_endpoint(comparison, random, endpoints);
    }
    let picture = pack(&flat(random, PLAIN));
    for value in 0..=255 {
        let other = random.byte();
        for [high, low] in [[value, other], [other, value]] {
            let records = [1, high, low, 3, low, high];
            Inputs { picture: &picture, records: &records }.every_buffer(comparison, random, 0);
        }
    }
}

/// In a record before or behind right ones.
fn each_endpoint(comparison: &mut Comparison, random: &mut Random, endpoints: usize) {
    let size = Size { edition: any_edition(random), endpoints, serving: 3 * endpoints, ..PLAIN };
    let picture = pack(&flat(random, size));
    for endpoint in 0..=255 {
        let is_there = (1..=endpoints).contains(&usize::from(endpoint));
        let number = if is_there { 0 } else { refusals::RECORD_ENDPOINT };
        let right = some_records(random, endpoints);
        let record = [endpoint, random.byte(), random.byte()];
        for records in [[&right[..], &record].concat(), [&record, &right[..]].concat()] {
            let room = *random.pick(&ROOMS);
            Inputs { picture: &picture, records: &records }
                .must_answer(comparison, random, room, number);
        }
    }
}

/// As many records as there may be and more, and lengths around each of these; also with the largest
/// weights, all in one counter.
pub fn limits(comparison: &mut Comparison, random: &mut Random, count: usize) {
    let largest = [1, 255, 255].repeat(2 * MAX_RECORDS + 1);
    around_limit(comparison, random, &samples::flat_a(), &largest);
    for round in 0..count.div_ceil(200) {
        let picture = any_flat(random, round);
        if picture.endpoints.is_empty() {
            continue;
        }
        let mut records = any_records(random, picture.endpoints.len(), 2 * MAX_RECORDS + 1);
        if random.once_in(4) {
            records.iter_mut().for_each(|record| record.weight = u16::MAX);
        }
        around_limit(comparison, random, &picture, &pack_records(&records));
    }
}

fn around_limit(comparison: &mut Comparison, random: &mut Random, picture: &Picture, records: &[u8]) {
    let picture = &pack(picture);
    for count in [MAX_RECORDS - 1, MAX_RECORDS, MAX_RECORDS + 1, 65_535, 65_536, 2 * MAX_RECORDS] {
        for length in RECORD_BYTES * count - 2..=RECORD_BYTES * count + 2 {
            let is_right = length % RECORD_BYTES == 0 && length <= RECORD_BYTES * MAX_RECORDS;
            let number = if is_right { 0 } else { refusals::RECORDS };
            let records = &records[..length];
            for room in [MAX_BLOCKS - 1, MAX_BLOCKS] {
                Inputs { picture, records }.must_answer(comparison, random, room, number);
            }
        }
    }
}

/// Faults of each kind at once: the order in which they are told is that in which they stand here.
pub fn several(comparison: &mut Comparison, random: &mut Random, count: usize) {
    for round in 0..4 * count {
        let mut picture = any_flat(random, round);
        let mut records = some_records(random, picture.endpoints.len());
        let mut numbers = Vec::new();
        if random.once_in(3) {
            start_elsewhere(random, &mut picture);
            numbers.push(refusals::LINK_START);
        }
        // A long list is only tried now and then.
        if random.once_in(3) {
            spoil_length(random, &mut records, round % 100 == 0);
            numbers.push(refusals::RECORDS);
        }
        if random.once_in(3) && spoil_endpoint(random, &mut records, picture.endpoints.len()) {
            numbers.push(refusals::RECORD_ENDPOINT);
        }
        let number = numbers.first().copied().unwrap_or(0);
        let inputs = Inputs { picture: &pack(&picture), records: &records };
        inputs.every_buffer(comparison, random, number);
    }
}

/// A byte or two too many or too few, or too many records.
fn spoil_length(random: &mut Random, records: &mut Vec<u8>, is_long: bool) {
    let length = records.len();
    match random.below(2) {
        _ if is_long => records.resize(RECORD_BYTES * (MAX_RECORDS + 1), 1),
        0 if length > 0 => records.truncate(length - random.between(1, 2)),
        _ => records.resize(length + random.between(1, 2), random.byte()),
    }
}

/// Gives one record, the first, the last or any, an endpoint that is not there; false where there is no
/// whole record.
fn spoil_endpoint(random: &mut Random, records: &mut [u8], endpoints: usize) -> bool {
    let count = records.len() / RECORD_BYTES;
    if count == 0 {
        return false;
    }
    let any = random.below(count);
    let record = *random.pick(&[0, count - 1, any]);
    let above = random.between(endpoints + 1, 255) as u8;
    records[RECORD_BYTES * record] = *random.pick(&[0, endpoints as u8 + 1, above, 255]);
    true
}

/// Flat networks with bytes changed or another length, and records of any bytes; the samples.
pub fn damaged(comparison: &mut Comparison, random: &mut Random, count: usize) {
    for (_, picture) in samples::files() {
        for _ in 0..8 {
            any(comparison, random, &picture);
        }
    }
    for round in 0..2 * count {
        let picture = any_flat(random, round);
        let bytes = pack(&picture);
        let records = some_records(random, picture.endpoints.len());
        let length = random.below(40);
        let chance = old_bytes(random, length);
        let mut pairs = vec![
            (bytes_changed(random, &bytes), records.clone()),
            (length_changed(random, &bytes), records.clone()),
            (chance.clone(), records.clone()),
            (bytes.clone(), chance),
        ];
        if !records.is_empty() {
            pairs.push((bytes, bytes_changed(random, &records)));
        }
        for (picture, records) in &pairs {
            Inputs { picture, records }.any_buffer(comparison, random);
        }
    }
}
