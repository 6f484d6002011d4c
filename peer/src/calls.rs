//! Lists of calls of the acts, what holds between two moments of such a list, random ones, and networks
//! for them.

use std::fmt::Debug;

use crate::networks::{network, Size, SHAPES};
use crate::picture::{read, Picture, State};
use crate::random::Random;
use crate::reach::{self, Network};
use crate::{evict, free, reload};

#[derive(Clone, Copy, Debug, PartialEq, Eq)]
pub enum Act {
    Evict,
    Reload,
    Free,
}

pub const ACTS: [Act; 3] = [Act::Evict, Act::Reload, Act::Free];

/// An act on a block, whatever number that is.
#[derive(Clone, Copy, Debug, PartialEq, Eq)]
pub struct Call {
    pub act: Act,
    pub block: u32,
}

impl Call {
    pub fn make(&self, lent: &mut [u8]) -> Result<(), u8> {
        match self.act {
            Act::Evict => evict(lent, self.block),
            Act::Reload => reload(lent, self.block),
            Act::Free => free(lent, self.block),
        }
    }
}

/// Makes the calls one after another and gives their answers. A refused one leaves the picture to the
/// next.
pub fn make_all(lent: &mut [u8], calls: &[Call]) -> Vec<Result<(), u8>> {
    calls.iter().map(|call| call.make(lent)).collect()
}

/// The sentence of requests C-15 and C-19 that does not hold from earlier to later bytes of one list of
/// calls, or nothing. What calls leave alone must be equal, each protected endpoint that is served
/// earlier must be served later, each that has a chain of held or recoverable slots earlier must have one
/// later, and each slot that is freed earlier must be freed later.
pub fn broken_promise(earlier: &[u8], later: &[u8]) -> Option<String> {
    let (earlier, later) = match (read(earlier), read(later)) {
        (Ok(earlier), Ok(later)) => (earlier, later),
        (Err(number), _) => return Some(format!("the earlier bytes are refused with {number}")),
        (_, Err(number)) => return Some(format!("the later bytes are refused with {number}")),
    };
    other_size(&earlier, &later)
        .or_else(|| other_row(&earlier, &later))
        .or_else(|| no_longer_served(&earlier, &later, "served"))
        .or_else(|| no_longer_served(&earlier.all_reloaded(), &later.all_reloaded(), CHAINED))
        .or_else(|| no_longer_freed(&earlier, &later))
}

fn other_size(earlier: &Picture, later: &Picture) -> Option<String> {
    let mut both = sizes(earlier).into_iter().zip(sizes(later));
    let ((name, before), (_, after)) = both.find(|(before, after)| before != after)?;
    Some(format!("{name} is {before} before, {after} after"))
}

/// What the header says, by its name.
fn sizes(picture: &Picture) -> [(&'static str, usize); 7] {
    [
        ("edition", usize::from(picture.edition.number)),
        ("block size", usize::from(picture.block_size)),
        ("number of slots", picture.slots.len()),
        ("near limit", usize::from(picture.near_limit)),
        ("number of endpoints", picture.endpoints.len()),
        ("number of links", picture.links.len()),
        ("number of serving links", picture.serving.len()),
    ]
}

/// Everything behind the header but the states.
fn other_row(earlier: &Picture, later: &Picture) -> Option<String> {
    let (slots, endpoints) = ((&earlier.slots, &later.slots), (&earlier.endpoints, &later.endpoints));
    other_field("near mark of slot", slots, |slot| slot.near)
        .or_else(|| other_field("weight of endpoint", endpoints, |endpoint| endpoint.weight))
        .or_else(|| other_field("protected mark of endpoint", endpoints, |endpoint| endpoint.protected))
        .or_else(|| other_field("link", (&earlier.links, &later.links), |link| *link))
        .or_else(|| other_field("serving link", (&earlier.serving, &later.serving), |link| *link))
}

/// The first row with another value in this field; rows are counted from 1.
fn other_field<R, F: Debug + PartialEq>(
    name: &str,
    (earlier, later): (&Vec<R>, &Vec<R>),
    field: impl Fn(&R) -> F,
) -> Option<String> {
    let both = earlier.iter().map(&field).zip(later.iter().map(&field));
    let (row, (before, after)) = (1..).zip(both).find(|(_, (before, after))| before != after)?;
    Some(format!("{name} {row} is {before:?} before, {after:?} after"))
}

/// What a protected endpoint is that is served once all recoverable slots are reloaded.
const CHAINED: &str = "has a chain of held or recoverable slots";

fn no_longer_served(earlier: &Picture, later: &Picture, what: &str) -> Option<String> {
    let (before, after) = (Network::new(earlier).served_now(), Network::new(later).served_now());
    let lost = reach::no_longer_served(&before, &after).find(|&at| earlier.endpoints[at].protected)?;
    Some(format!("endpoint {} is protected and {what} before, not after", lost + 1))
}

fn no_longer_freed(earlier: &Picture, later: &Picture) -> Option<String> {
    let is_freed = |picture: &Picture, at: usize| picture.slots[at].state == State::Freed;
    let is_back = |at: &usize| is_freed(earlier, *at) && !is_freed(later, *at);
    let back = (0..earlier.slots.len()).find(is_back)?;
    Some(format!("slot {} is freed before, not after", back + 1))
}

/// So many calls of chance, now and then on a number that no block has. Freed slots never come back,
/// so that a long list has frees for about half of its blocks at most, and many only at its end.
pub fn any_calls(random: &mut Random, blocks: usize, count: usize) -> Vec<Call> {
    let rare = (count / random.between(1, blocks.div_ceil(2))).max(4);
    let end = count - count / 8;
    (0..count).map(|step| any_call(random, blocks, if step < end { rare } else { 2 })).collect()
}

/// Once in `frees` calls it is a free.
fn any_call(random: &mut Random, blocks: usize, frees: usize) -> Call {
    let act = match random.once_in(frees) {
        true => Act::Free,
        false => *random.pick(&[Act::Evict, Act::Reload]),
    };
    let outside = no_blocks(random, blocks as u32);
    let block = match random.once_in(12) {
        true => *random.pick(&outside),
        false => random.below(blocks) as u32,
    };
    Call { act, block }
}

/// Numbers that no block has; the last one's low bits are a block's number.
pub fn no_blocks(random: &mut Random, blocks: u32) -> [u32; 5] {
    let cut_off = *random.pick(&[1 << 8, 1 << 16, 1 << 24]) + random.below(blocks as usize) as u32;
    [blocks, blocks + 1, 1 << 31, u32::MAX, cut_off]
}

/// A network in which protected endpoints often wait for a reload, or are served and have recoverable
/// slots besides. Where there are links enough, each slot has one from the origin or a lower slot.
pub fn waiting(random: &mut Random, size: Size) -> Picture {
    use State::{Freed, Held, Recoverable};
    let mixes =
        [[Held, Held, Recoverable], [Held, Recoverable, Recoverable], [Held, Recoverable, Freed]];
    let (shape, mix) = (*random.pick(&SHAPES), random.pick(&mixes));
    let mut picture = network(random, shape, size);
    for slot in &mut picture.slots {
        slot.state = *random.pick(mix);
    }
    for (slot, link) in (1..=size.slots).zip(&mut picture.links) {
        let from = if random.once_in(2) { 0 } else { random.below(slot) };
        *link = (from as u16, slot as u16);
    }
    for endpoint in &mut picture.endpoints {
        endpoint.protected = random.once_in(3);
    }
    picture
}
