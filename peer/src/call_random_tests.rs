//! Random lists of calls, with the acts as they are and with wrong ones.

use std::collections::BTreeSet;

use crate::calls::{any_calls, broken_promise, waiting, Act, Call};
use crate::networks::{network, Size, SHAPES};
use crate::picture::{Endpoint, State};
use crate::random::Random;
use crate::random_tests::{fewest_over, served_by_words, small_networks, tied_networks};
use crate::reach::{Network, NOTHING};
use crate::refusals::number_of;
use crate::{pack, read, Picture};

use Act::{Evict, Free, Reload};

/// Pictures with lists of calls: small networks, such in which most endpoints hang on one block, and
/// ones of middle size, in every second of which endpoints wait for a reload; all of both editions.
fn random_lists(seed: u64, count: usize) -> impl Iterator<Item = (Vec<u8>, Vec<Call>)> {
    let mut random = Random::new(seed);
    let middle = (0..2 * count).map(|round| {
        let (size, shape) = (Size::middle(&mut random), *random.pick(&SHAPES));
        match round % 2 {
            0 => network(&mut random, shape, size),
            _ => waiting(&mut random, size),
        }
    });
    let middle: Vec<Picture> = middle.collect();
    let networks = small_networks(seed, count).chain(tied_networks(seed, count)).chain(middle);
    networks.map(move |picture| {
        let length = random.between(20, 60);
        (pack(&picture), any_calls(&mut random, picture.block_count(), length))
    })
}

/// The bytes at the start and after each call, by this way to make one.
fn moments(start: Vec<u8>, calls: &[Call], mut make: impl FnMut(&Call, &mut [u8])) -> Vec<Vec<u8>> {
    let mut moments = vec![start];
    for (step, call) in calls.iter().enumerate() {
        moments.push(moments[step].clone());
        make(call, &mut moments[step + 1]);
    }
    moments
}

#[test]
fn random_lists_keep_the_promise() {
    let (mut editions, mut numbers) = (BTreeSet::new(), BTreeSet::new());
    for (start, calls) in random_lists(1, 200) {
        editions.insert(start[0] >> 4);
        let moments = moments(start, &calls, |call, bytes| {
            numbers.insert(number_of(call.make(bytes)));
        });
        let middle = calls.len() / 2;
        for (last, later) in moments.iter().enumerate() {
            for first in [0, middle.min(last), last.saturating_sub(1)] {
                let broken = broken_promise(&moments[first], later);
                assert_eq!(broken, None, "from {first} to {last} of {calls:?}");
            }
        }
    }
    assert_eq!(editions, BTreeSet::from([1, 2]));
    assert_eq!(numbers, BTreeSet::from([0, 8, 10, 11, 12]));
}

/// For each slot whether it is freed, and for each endpoint whether it is protected and served, and
/// whether it is protected and has a chain of held or recoverable slots, by the words of the documents.
fn lasting(bytes: &[u8]) -> [Vec<bool>; 3] {
    let picture = read(bytes).expect("an accepted picture");
    let has_chain = |is_open: fn(State) -> bool| {
        let fewest = fewest_over(&picture, usize::MAX, is_open);
        let is_lasting = |(endpoint, facts): (usize, &Endpoint)| {
            facts.protected && served_by_words(&picture, &fewest, endpoint)
        };
        (1..).zip(&picture.endpoints).map(is_lasting).collect()
    };
    let freed = picture.slots.iter().map(|slot| slot.state == State::Freed).collect();
    [freed, has_chain(|state| state == State::Held), has_chain(|state| state != State::Freed)]
}

/// How many are so at the end that were not at the start. Those that are so at one moment must be so at
/// the next one.
fn added(moments: &[Vec<bool>]) -> usize {
    for pair in moments.windows(2) {
        assert!(pair[0].iter().zip(&pair[1]).all(|(before, after)| !before || *after));
    }
    let ends = moments[0].iter().zip(&moments[moments.len() - 1]);
    ends.filter(|(before, after)| before != after).count()
}

#[test]
fn what_lasts_once_lasts() {
    let (mut added_since, mut waiting_still) = ([0; 3], 0);
    for (start, calls) in random_lists(2, 100) {
        let moments = moments(start, &calls, |call, bytes| {
            let _ = call.make(bytes);
        });
        let lasting: Vec<_> = moments.iter().map(|bytes| lasting(bytes)).collect();
        for (kind, since) in added_since.iter_mut().enumerate() {
            let each: Vec<_> = lasting.iter().map(|kinds| kinds[kind].clone()).collect();
            *since += added(&each);
        }
        let [_, served, chained] = &lasting[calls.len()];
        waiting_still += (0..served.len()).filter(|&at| chained[at] && !served[at]).count();
    }
    let [freed, served, chained] = added_since;
    // Not all that lasts was there at the start, but chains of held or recoverable slots were: no call
    // brings back a freed slot.
    assert!(freed > 100 && served > 10 && chained == 0, "{added_since:?}");
    assert!(waiting_still > 10, "{waiting_still}");
}

/// Turns a block's slots, whatever that cuts.
fn turn_unjudged(lent: &mut [u8], block: u32, turned: impl Fn(State) -> State) {
    let mut picture = read(lent).expect("an accepted picture");
    for location in picture.named_block(block).unwrap_or(NOTHING) {
        let slot = &mut picture.slots[location - 1];
        slot.state = turned(slot.state);
    }
    lent.copy_from_slice(&pack(&picture));
}

fn evict_unjudged(lent: &mut [u8], block: u32) {
    turn_unjudged(lent, block, |state| match state {
        State::Held => State::Recoverable,
        other => other,
    });
}

/// Frees a block that cuts no protected endpoint in the picture as it is taken.
pub fn free_judged_on(taken: fn(&Picture) -> Picture, lent: &mut [u8], block: u32) {
    let picture = taken(&read(lent).expect("an accepted picture"));
    let locations = picture.named_block(block).unwrap_or(NOTHING);
    let (_, cut) = Network::new(&picture).weigh(&locations);
    if cut.mark == 0 {
        turn_unjudged(lent, block, |_| State::Freed);
    }
}

const LOST: &str = "is protected and served before, not after";
const GONE: &str = "is protected and has a chain of held or recoverable slots before, not after";
const BACK: &str = "is freed before, not after";

type WrongAct = fn(&mut [u8], u32);

/// Each act in turn does not look at what it cuts or, reload, at what was freed, and free looks at one
/// of two things alone; the other acts are right. Each breaks these sentences and no other one.
#[test]
fn wrong_acts_break_the_promise_on_random_lists() {
    let wrong: [(Act, WrongAct, &[&str]); 5] = [
        (Free, |lent, block| turn_unjudged(lent, block, |_| State::Freed), &[LOST, GONE]),
        (Free, |lent, block| free_judged_on(Picture::clone, lent, block), &[GONE]),
        (Free, |lent, block| free_judged_on(Picture::all_reloaded, lent, block), &[LOST]),
        (Evict, evict_unjudged, &[LOST]),
        (Reload, |lent, block| turn_unjudged(lent, block, |_| State::Held), &[BACK]),
    ];
    for (row, (act, wrong_act, sentences)) in wrong.into_iter().enumerate() {
        let mut found = [BTreeSet::new(), BTreeSet::new()];
        for (start, calls) in random_lists(3, 100) {
            let moments = moments(start, &calls, |call, bytes| match call.act == act {
                true => wrong_act(bytes, call.block),
                false => call.make(bytes).unwrap_or(()),
            });
            for (found, first) in found.iter_mut().zip([0, calls.len() / 2]) {
                if let Some(broken) = broken_promise(&moments[first], &moments[calls.len()]) {
                    let sentence = sentences.iter().find(|sentence| broken.ends_with(**sentence));
                    found.insert(*sentence.unwrap_or_else(|| panic!("row {row}: {broken}")));
                }
            }
        }
        let all: BTreeSet<&str> = sentences.iter().copied().collect();
        assert_eq!(found, [all.clone(), all], "row {row}");
    }
}
