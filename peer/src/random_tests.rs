//! Properties on random networks of both editions, and the forests held against document 01's own
//! words.

use crate::bits::BitWriter;
use crate::edition::MAX_BLOCK_SIZE;
use crate::foreign::{self, GROWTHS};
use crate::networks::{any_edition, network, tied, Size, SHAPES};
use crate::picture::State;
use crate::random::Random;
use crate::tests::{choice_of, evidence_of};
use crate::{check, evict, lists_of, pack, read, refusals, weigh, write, Picture};

pub fn small_networks(seed: u64, count: usize) -> impl Iterator<Item = Picture> {
    let mut random = Random::new(seed);
    (0..count).map(move |_| {
        let size = Size::small(&mut random);
        let shape = *random.pick(&SHAPES);
        network(&mut random, shape, size)
    })
}

/// Ties of small blocks, and of blocks of up to fifteen slots.
pub fn tied_networks(seed: u64, count: usize) -> impl Iterator<Item = Picture> {
    let mut random = Random::new(seed);
    (0..count).map(move |round| {
        let largest = if round % 4 == 0 { MAX_BLOCK_SIZE } else { 3 };
        let (block_size, blocks) = (random.between(1, largest), random.between(2, 4));
        let endpoints = blocks + random.below(6);
        let edition = any_edition(&mut random);
        tied(&mut random, edition, block_size, blocks, endpoints)
    })
}

/// The fewest links from the origin to each location over held slots, see `fewest_over`.
pub fn fewest_links(picture: &Picture, evicted: usize) -> Vec<Option<u16>> {
    fewest_over(picture, evicted, |state| state == State::Held)
}

/// The fewest links from the origin to each location, found by following every link until nothing
/// changes any more; no search, no order.
pub fn fewest_over(
    picture: &Picture,
    evicted: usize,
    is_open: impl Fn(State) -> bool,
) -> Vec<Option<u16>> {
    let carries = |slot: usize| {
        let block = (slot - 1) / usize::from(picture.block_size);
        is_open(picture.slots[slot - 1].state) && block != evicted
    };
    let mut fewest = vec![None; picture.slots.len() + 1];
    fewest[0] = Some(0);
    for _ in &picture.slots {
        for &(from, to) in &picture.links {
            let (from, to) = (usize::from(from), usize::from(to));
            if let (Some(depth), true) = (fewest[from], to > 0 && carries(to)) {
                fewest[to] = Some(fewest[to].map_or(depth + 1, |old: u16| old.min(depth + 1)));
            }
        }
    }
    fewest
}

/// The forest's bytes by the words of document 01, field by field.
fn forest_by_words(picture: &Picture, fewest: &[Option<u16>]) -> Vec<u8> {
    let slots = picture.slots.len() as u16;
    let entry = |slot: u16| match fewest[usize::from(slot)] {
        None => [0, 0],
        Some(depth) => {
            let leads_here = |from: &u16| {
                fewest[usize::from(*from)] == Some(depth - 1) && picture.links.contains(&(*from, slot))
            };
            let parent = (0..=slots).find(leads_here);
            [parent.expect("a reached slot has a parent"), depth]
        }
    };
    let mut fields = BitWriter::new();
    for number in (1..=slots).flat_map(entry) {
        fields.field(picture.edition.location_width, u32::from(number));
    }
    fields.into_bytes()
}

pub fn served_by_words(picture: &Picture, fewest: &[Option<u16>], endpoint: usize) -> bool {
    let serves = |(location, to): &(u16, u8)| {
        usize::from(*to) == endpoint && fewest[usize::from(*location)].is_some()
    };
    picture.serving.iter().any(serves)
}

/// Served weight, loss and mark between two states of reach, endpoint by endpoint.
fn weighed_by_words(picture: &Picture, now: &[Option<u16>], then: &[Option<u16>]) -> (u32, u32, u8) {
    let (mut served, mut loss, mut mark) = (0, 0, 0);
    for (endpoint, facts) in (1..).zip(&picture.endpoints) {
        if served_by_words(picture, now, endpoint) {
            served += u32::from(facts.weight);
            if !served_by_words(picture, then, endpoint) {
                loss += u32::from(facts.weight);
                mark |= u8::from(facts.protected);
            }
        }
    }
    (served, loss, mark)
}

/// How many endpoints are served now and not then.
fn cut_by_words(picture: &Picture, now: &[Option<u16>], then: &[Option<u16>]) -> usize {
    let is_cut = |endpoint: &usize| {
        served_by_words(picture, now, *endpoint) && !served_by_words(picture, then, *endpoint)
    };
    (1..=picture.endpoints.len()).filter(is_cut).count()
}

fn is_candidate_by_words(picture: &Picture, block: usize) -> bool {
    let size = usize::from(picture.block_size);
    let held_near = |location: usize| {
        let slot = picture.slots[location - 1];
        slot.state == State::Held && slot.near
    };
    (block * size + 1..=block * size + size).any(held_near)
}

#[test]
fn weights_and_forests_follow_the_words() {
    let mut random = Random::new(8);
    let large = SHAPES.map(|shape| {
        let size = Size::beyond_first(&mut random);
        network(&mut random, shape, size)
    });
    for picture in small_networks(2, 1000).chain(tied_networks(7, 200)).chain(large) {
        let bytes = pack(&picture);
        let evidence = evidence_of(&bytes);
        let length = picture.slots.len() * [2, 3][usize::from(picture.edition.number) - 1];
        let now = fewest_links(&picture, usize::MAX);
        assert_eq!(evidence[9..9 + length], forest_by_words(&picture, &now));
        let mut sections = evidence[9 + length..].chunks(5 + length);
        for block in 0..picture.block_count() {
            let then = fewest_links(&picture, block);
            let (served, loss, mark) = weighed_by_words(&picture, &now, &then);
            assert_eq!(weigh(&bytes, block as u32), Ok((served, loss, mark)));
            if is_candidate_by_words(&picture, block) {
                let section = sections.next().expect("a section for each candidate");
                assert_eq!(usize::from(section[0]), block);
                assert_eq!(section[1..4], loss.to_be_bytes()[1..]);
                assert_eq!(section[4], mark);
                assert_eq!(section[5..], forest_by_words(&picture, &then));
            }
        }
        assert!(sections.next().is_none());
    }
}

/// The admissible candidates, rising, with their losses and the numbers of endpoints that they cut.
fn admissible_by_words(picture: &Picture) -> Vec<(u8, u32, usize)> {
    let now = fewest_links(picture, usize::MAX);
    let mut admissible = Vec::new();
    for block in 0..picture.block_count() {
        let then = fewest_links(picture, block);
        let (_, loss, mark) = weighed_by_words(picture, &now, &then);
        if is_candidate_by_words(picture, block) && mark == 0 {
            admissible.push((block as u8, loss, cut_by_words(picture, &now, &then)));
        }
    }
    admissible
}

/// Those that no other candidate stands before: by a smaller loss or, where losses are equal, by
/// fewer endpoints cut.
fn best_by_words(admissible: &[(u8, u32, usize)]) -> Vec<(u8, u32)> {
    let is_best = |&&(_, loss, cut): &&(u8, u32, usize)| {
        admissible.iter().all(|&(_, other, others)| other > loss || (other == loss && others >= cut))
    };
    admissible.iter().filter(is_best).map(|&(block, loss, _)| (block, loss)).collect()
}

#[test]
fn choices_and_verdicts_follow_the_words() {
    for picture in small_networks(4, 1000).chain(tied_networks(5, 1000)) {
        let bytes = pack(&picture);
        let admissible = admissible_by_words(&picture);
        let best = best_by_words(&admissible);
        assert_eq!(choice_of(&bytes).1, best.first().copied());
        for (block, loss, _) in admissible {
            let mut evidence = evidence_of(&bytes);
            evidence[1] = block;
            evidence[6..9].copy_from_slice(&loss.to_be_bytes()[1..]);
            let due = if best.contains(&(block, loss)) { Ok(()) } else { Err(refusals::VERDICT) };
            assert_eq!(check(&bytes, &evidence), due, "block {block}");
        }
    }
}

#[test]
fn every_evidence_passes_and_every_choice_can_be_evicted() {
    let mut random = Random::new(1);
    let sizes = [
        Size::any(&mut random),
        Size::any(&mut random),
        Size::beyond_first(&mut random),
        Size::full(&mut random),
    ];
    let large: Vec<Picture> = SHAPES
        .iter()
        .flat_map(|shape| sizes.map(|size| (*shape, size)))
        .map(|(shape, size)| network(&mut random, shape, size))
        .collect();
    for picture in small_networks(3, 400).chain(tied_networks(6, 400)).chain(large) {
        let bytes = pack(&picture);
        assert_eq!(read(&bytes).as_ref(), Ok(&picture));
        let mut written = vec![0xFF; bytes.len()];
        assert_eq!(write(&lists_of(&picture), &mut written), Ok(bytes.len()));
        assert_eq!(written, bytes);
        assert_eq!(check(&bytes, &evidence_of(&bytes)), Ok(()));
        for growth in GROWTHS {
            let foreign = foreign::evidence(&mut random, &picture, growth);
            assert_eq!(check(&bytes, &foreign), Ok(()), "{growth:?}");
        }
        let (served, chosen) = choice_of(&bytes);
        let mut after = bytes;
        if let Some((block, loss)) = chosen {
            assert_eq!(evict(&mut after, u32::from(block)), Ok(()));
            assert_eq!(choice_of(&after).0, served - loss);
        }
    }
}
