//! What each block loses by traffic: an endpoint weighs the sum of its records, whatever weight the picture
//! has for it. Networks must be flat: every link starts at the origin.

use crate::edition::MAX_BLOCKS;
use crate::picture::{read, Picture, State};
use crate::random::Random;
use crate::reach::{no_longer_served, Network};
use crate::refusals;

pub const RECORD_BYTES: usize = 3;
/// As many records of the largest weight together have room in a counter.
pub const MAX_RECORDS: usize = 60_000;

/// A counter for each block that there may be; those past the picture's last block are 0.
pub type Counters = [u32; MAX_BLOCKS];

/// A weight that an endpoint had in traffic.
#[derive(Clone, Copy, Debug, PartialEq, Eq)]
pub struct Record {
    pub endpoint: u8,
    pub weight: u16,
}

impl Record {
    fn place(&self) -> usize {
        usize::from(self.endpoint) - 1
    }
}

pub fn pack_records(records: &[Record]) -> Vec<u8> {
    let fields = |record: &Record| {
        let [high, low] = record.weight.to_be_bytes();
        [record.endpoint, high, low]
    };
    records.iter().flat_map(fields).collect()
}

/// Reads records for so many endpoints. Their length is judged before any of them.
fn read_records(bytes: &[u8], endpoints: usize) -> Result<Vec<Record>, u8> {
    if bytes.len() % RECORD_BYTES != 0 || bytes.len() / RECORD_BYTES > MAX_RECORDS {
        return Err(refusals::RECORDS);
    }
    let record = |fields: &[u8]| {
        let record = Record { endpoint: fields[0], weight: u16::from_be_bytes([fields[1], fields[2]]) };
        let is_there = (1..=endpoints).contains(&usize::from(record.endpoint));
        is_there.then_some(record).ok_or(refusals::RECORD_ENDPOINT)
    };
    bytes.chunks_exact(RECORD_BYTES).map(record).collect()
}

pub fn is_flat(picture: &Picture) -> bool {
    picture.links.iter().all(|(from, _)| *from == 0)
}

/// Picture and records of a flat network, or the first fault.
fn judged(picture: &[u8], records: &[u8]) -> Result<(Picture, Vec<Record>), u8> {
    let picture = read(picture)?;
    if !is_flat(&picture) {
        return Err(refusals::LINK_START);
    }
    let records = read_records(records, picture.endpoints.len())?;
    Ok((picture, records))
}

/// The loss of every block, be it a candidate or not, by document 01's definition: a walk with the block
/// and one without it, and the traffic of the endpoints that are cut.
pub fn price(picture: &[u8], records: &[u8]) -> Result<Counters, u8> {
    let (picture, records) = judged(picture, records)?;
    let traffic = traffic(&picture, &records);
    let network = Network::new(&picture);
    let before = network.served_now();
    let mut counters = [0; MAX_BLOCKS];
    for (block, counter) in (0..picture.block_count()).zip(&mut counters) {
        let after = network.served(&network.search(&picture.block_locations(block)));
        *counter = no_longer_served(&before, &after).map(|place| traffic[place]).sum();
    }
    Ok(counters)
}

/// For each endpoint the sum of its records.
fn traffic(picture: &Picture, records: &[Record]) -> Vec<u32> {
    let mut traffic = vec![0; picture.endpoints.len()];
    for record in records {
        traffic[record.place()] += u32::from(record.weight);
    }
    traffic
}

/// Writes the counters to the start of the lent buffer, or tells the first fault, that of a buffer with
/// no room for all of them last, and leaves the buffer as it is.
pub fn price_into(picture: &[u8], records: &[u8], buffer: &mut [u32]) -> Result<(), u8> {
    let counters = price(picture, records)?;
    let room = buffer.get_mut(..MAX_BLOCKS).ok_or(refusals::BUFFER)?;
    room.copy_from_slice(&counters);
    Ok(())
}

/// The same counters by the words of the request, without a walk: a record adds its weight to the block
/// that alone feeds its endpoint.
pub fn price_by_feeders(picture: &[u8], records: &[u8]) -> Result<Counters, u8> {
    let (picture, records) = judged(picture, records)?;
    Ok(added(&only_feeders(&picture), &records))
}

fn added(feeders: &[Option<usize>], records: &[Record]) -> Counters {
    let mut counters = [0; MAX_BLOCKS];
    for record in records {
        if let Some(block) = feeders[record.place()] {
            counters[block] += u32::from(record.weight);
        }
    }
    counters
}

/// For each endpoint of a flat network its feeder, if it has just one and the origin does not serve it.
fn only_feeders(picture: &Picture) -> Vec<Option<usize>> {
    let reached = linked_and_held(picture);
    // The blocks, each once, and the origin, which is in none.
    let mut feeders: Vec<Vec<Option<usize>>> = vec![Vec::new(); picture.endpoints.len()];
    for &(location, endpoint) in &picture.serving {
        let location = usize::from(location);
        let block = location.checked_sub(1).map(|slot| slot / usize::from(picture.block_size));
        let feeders = &mut feeders[usize::from(endpoint) - 1];
        if reached[location] && !feeders.contains(&block) {
            feeders.push(block);
        }
    }
    let only = |feeders: &Vec<Option<usize>>| match feeders.as_slice() {
        [only] => *only,
        _ => None,
    };
    feeders.iter().map(only).collect()
}

/// For each location of a flat network, whether it is reached.
fn linked_and_held(picture: &Picture) -> Vec<bool> {
    let mut reached = vec![false; picture.slots.len() + 1];
    reached[0] = true;
    for &(_, to) in &picture.links {
        let to = usize::from(to);
        reached[to] = to == 0 || picture.slots[to - 1].state == State::Held;
    }
    reached
}

/// What request C-16 says of the counters of a call that was done and does not hold, or nothing.
pub fn broken_price(picture: &[u8], records: &[u8], counters: &[u32]) -> Option<String> {
    let (picture, records) = match judged(picture, records) {
        Ok(judged) => judged,
        Err(number) => return Some(format!("{number} was due")),
    };
    let due = added(&only_feeders(&picture), &records);
    let is_kept = counters == due;
    (!is_kept).then(|| format!("what each block alone feeds is {due:?}"))
}

/// So many records of chance for the endpoints 1 to `endpoints`, some of them for few; none where there
/// are no endpoints.
pub fn any_records(random: &mut Random, endpoints: usize, count: usize) -> Vec<Record> {
    if endpoints == 0 {
        return Vec::new();
    }
    let (lowest, highest) = *random.pick(&[(0, 2), (1, 1000), (0, 65_535), (65_535, 65_535)]);
    let some = random.between(1, endpoints);
    let most = *random.pick(&[some, endpoints]);
    let record = |_| Record {
        endpoint: random.between(1, most) as u8,
        weight: random.between(lowest, highest) as u16,
    };
    (0..count).map(record).collect()
}
