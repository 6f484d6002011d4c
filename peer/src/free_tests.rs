//! Free judged by chains of held slots and by those of held or recoverable ones, evict by the former
//! alone.

use crate::call_random_tests::free_judged_on;
use crate::call_tests::{cases, hold_by_hand, hold_list, Row, BLOCK_1_FREED, GONE_1, RECOVERABLE};
use crate::calls::{broken_promise, waiting, Act, Call};
use crate::edition::EDITIONS;
use crate::networks::Size;
use crate::picture::{Endpoint, State};
use crate::random::Random;
use crate::random_tests::{fewest_over, served_by_words, small_networks, tied_networks};
use crate::refusals::{number_of, NO_CHANGE, PROTECTED};
use crate::tie_tests::drawn;
use crate::{pack, reload, weigh, Picture};

use Act::{Evict, Free, Reload};
use State::{Freed, Held, Recoverable};

/// Slots of these states, each a block and with a link from the origin, and an endpoint that is
/// protected and that these locations serve.
fn fed(states: &[State], locations: &[u16]) -> Picture {
    let mut picture = drawn(states.len(), &[(30, locations)]);
    picture.endpoints[0].protected = true;
    set_states(&mut picture, states);
    picture
}

fn set_states(picture: &mut Picture, states: &[State]) {
    for (slot, state) in picture.slots.iter_mut().zip(states) {
        slot.state = *state;
    }
}

/// The same with the slots in a line, of which the last one serves the endpoint.
fn line(states: &[State]) -> Picture {
    let last = states.len() as u16;
    Picture { links: (0..last).map(|from| (from, from + 1)).collect(), ..fed(states, &[last]) }
}

/// The same slots in blocks of two.
fn in_pairs(picture: Picture) -> Picture {
    Picture { block_size: 2, ..picture }
}

/// What evict and free of each block get, each on the picture as it is. Beside the states that an act
/// turns every byte must stay.
fn answers(picture: &Picture) -> Vec<[u8; 2]> {
    let answer = |act, block: usize| {
        let mut bytes = pack(picture);
        let number = number_of(Call { act, block: block as u32 }.make(&mut bytes));
        let mut after = picture.clone();
        if number == 0 {
            let slots = picture.block_locations(block).map(|location| location - 1);
            slots.for_each(|slot| after.slots[slot].state = turned(act, picture.slots[slot].state));
        }
        assert_eq!(bytes, pack(&after));
        number
    };
    (0..picture.block_count()).map(|block| [Evict, Free].map(|act| answer(act, block))).collect()
}

fn turned(act: Act, state: State) -> State {
    match (act, state) {
        (Free, _) => Freed,
        (Evict, Held) => Recoverable,
        (_, state) => state,
    }
}

/// What evict and free of each block get, in both editions. Where that is 10, they are done if nothing
/// is protected.
fn hold(picture: &Picture, numbers: &[[u8; 2]]) {
    let mut unprotected = picture.clone();
    unprotected.endpoints.iter_mut().for_each(|endpoint| endpoint.protected = false);
    let done = |number| if number == PROTECTED { 0 } else { number };
    let numbers_then: Vec<[u8; 2]> = numbers.iter().map(|pair| pair.map(done)).collect();
    for edition in EDITIONS {
        assert_eq!(answers(&Picture { edition, ..picture.clone() }), numbers);
        assert_eq!(answers(&Picture { edition, ..unprotected.clone() }), numbers_then);
    }
}

#[test]
fn a_recoverable_block_that_is_the_only_way_is_not_freed() {
    hold(&fed(&[Recoverable], &[1]), &[[11, 10]]);
    // Block 1 feeds nothing.
    hold(&fed(&[Recoverable, Recoverable], &[1]), &[[11, 10], [11, 0]]);
    // Two feeders in one block are one way.
    hold(&in_pairs(fed(&[Recoverable, Recoverable], &[1, 2])), &[[11, 10]]);
    // No weight, no near slot, a near limit under which no reload is done, and repeated links.
    let mut picture = fed(&[Recoverable, Held], &[1, 1]);
    picture.endpoints[0].weight = 0;
    hold(&picture, &[[11, 10], [0, 0]]);
    picture.near_limit = 0;
    picture.links.push((0, 1));
    hold(&picture, &[[11, 10], [0, 0]]);
    picture.slots[0].near = false;
    hold(&picture, &[[11, 10], [0, 0]]);
}

/// An endpoint that is served over one block alone, with or without a recoverable slot elsewhere.
#[test]
fn a_recoverable_slot_elsewhere_does_not_let_a_block_go() {
    hold(&fed(&[Held], &[1]), &[[10, 10]]);
    hold(&fed(&[Held, Recoverable], &[1, 2]), &[[10, 10], [11, 0]]);
    hold(&in_pairs(fed(&[Held, Recoverable, Recoverable, Freed], &[1, 2, 3])), &[[10, 10], [11, 0]]);
    // The other slot's chain goes over the block too.
    let mut hanging = fed(&[Held, Recoverable], &[1, 2]);
    hanging.links[1] = (1, 2);
    hold(&hanging, &[[10, 10], [11, 0]]);
}

#[test]
fn a_block_goes_where_there_is_another_way() {
    hold(&fed(&[Held, Held], &[1, 2]), &[[0, 0], [0, 0]]);
    hold(&fed(&[Recoverable, Recoverable], &[1, 2]), &[[11, 0], [11, 0]]);
    hold(&in_pairs(fed(&[Recoverable, Freed, Held, Recoverable], &[1, 3, 4])), &[[11, 0], [10, 10]]);
    // The origin serves the endpoint too.
    hold(&fed(&[Recoverable, Held], &[1, 0]), &[[11, 0], [0, 0]]);
}

#[test]
fn a_chain_may_need_held_and_recoverable_slots() {
    hold(&line(&[Held, Held]), &[[10, 10], [10, 10]]);
    hold(&line(&[Held, Recoverable]), &[[0, 10], [11, 10]]);
    hold(&line(&[Recoverable, Held]), &[[11, 10], [0, 10]]);
    hold(&line(&[Recoverable, Recoverable]), &[[11, 10], [11, 10]]);
    hold(&line(&[Recoverable, Held, Recoverable]), &[[11, 10], [0, 10], [11, 10]]);
    // Either chain goes over slot 1, and one over each of the others.
    let mut fork = fed(&[Held, Recoverable, Recoverable], &[2, 3]);
    fork.links = vec![(0, 1), (1, 2), (1, 3)];
    hold(&fork, &[[0, 10], [11, 0], [11, 0]]);
}

#[test]
fn a_freed_slot_is_no_way() {
    hold(&fed(&[Recoverable, Freed], &[1, 2]), &[[11, 10], [11, 11]]);
    hold(&fed(&[Held, Freed], &[1, 2]), &[[10, 10], [11, 11]]);
    hold(&in_pairs(fed(&[Recoverable, Freed, Freed, Recoverable], &[1, 3])), &[[11, 10], [11, 0]]);
}

#[test]
fn an_endpoint_without_a_chain_of_either_kind_stops_nothing() {
    hold(&line(&[Held, Freed]), &[[0, 0], [11, 11]]);
    hold(&line(&[Recoverable, Freed]), &[[11, 0], [11, 11]]);
    hold(&line(&[Freed, Recoverable]), &[[11, 11], [11, 0]]);
    // The freed slot, which would be the endpoint's way, is in the block.
    hold(&in_pairs(fed(&[Freed, Held], &[1])), &[[0, 0]]);
    hold(&in_pairs(fed(&[Freed, Recoverable], &[1])), &[[11, 0]]);
    // A cycle that no link leads into, no serving link, and no endpoint.
    let mut cycle = fed(&[Recoverable, Held], &[1, 2]);
    cycle.links = vec![(1, 2), (2, 1)];
    hold(&cycle, &[[11, 0], [0, 0]]);
    hold(&fed(&[Recoverable, Held], &[]), &[[11, 0], [0, 0]]);
    cycle.endpoints.clear();
    cycle.serving.clear();
    hold(&cycle, &[[11, 0], [0, 0]]);
}

#[test]
fn protected_endpoints_count_alone() {
    // Slot 1 could serve endpoint 1 and slot 2 endpoint 2, of which one is protected or both are.
    let mut two = drawn(2, &[(30, &[1]), (12, &[2])]);
    set_states(&mut two, &[Recoverable, Recoverable]);
    two.endpoints[1].protected = true;
    hold(&two, &[[11, 0], [11, 10]]);
    two.endpoints[0].protected = true;
    hold(&two, &[[11, 10], [11, 10]]);
    // Block 1 serves both, and block 0 could serve endpoint 1 too.
    two.serving.push((2, 1));
    set_states(&mut two, &[Recoverable, Held]);
    hold(&two, &[[11, 0], [10, 10]]);
}

/// In document 01's G nothing is held, and only block 0 could serve endpoint 1, which is protected.
#[test]
fn a_refused_free_leaves_its_way_to_a_reload() {
    const FREED_1: [u8; 2] = [0b_0110_1110, 0b_1101_0000];
    let rows = [
        (Free, 0, 10, RECOVERABLE),
        (Evict, 0, 11, RECOVERABLE),
        // Endpoint 2 is not protected.
        (Free, 1, 0, FREED_1),
        (Free, 0, 10, FREED_1),
        (Reload, 0, 0, BLOCK_1_FREED),
        (Free, 0, 10, BLOCK_1_FREED),
        (Evict, 0, 10, BLOCK_1_FREED),
    ];
    hold_by_hand(2, RECOVERABLE, &rows);
    let served = cases(2, BLOCK_1_FREED).map(|bytes| weigh(&bytes, 0));
    assert_eq!(served, [Ok((30, 30, 1)); 2]);
}

/// The same day with a free that looks at served endpoints alone.
#[test]
fn a_free_judged_as_evict_leaves_no_way_to_a_reload() {
    for start in cases(2, RECOVERABLE) {
        let mut bytes = start.clone();
        free_judged_on(Picture::clone, &mut bytes, 0);
        assert_eq!(reload(&mut bytes, 0), Err(NO_CHANGE));
        assert_eq!(broken_promise(&start, &bytes).as_deref(), Some(GONE_1));
    }
}

/// Makes the calls on the picture, in both editions.
fn hold_day(picture: &Picture, rows: &[Row<&[State]>]) {
    let start: Vec<State> = picture.slots.iter().map(|slot| slot.state).collect();
    for edition in EDITIONS {
        let bytes_with = |states: &[State]| {
            let mut picture = Picture { edition, ..picture.clone() };
            set_states(&mut picture, states);
            pack(&picture)
        };
        hold_list(bytes_with, &start[..], rows);
    }
}

#[test]
fn two_feeders_through_a_day() {
    let rows: [Row<&[State]>; 10] = [
        (Evict, 0, 0, &[Recoverable, Held]),
        (Evict, 1, 10, &[Recoverable, Held]),
        // Slot 1 could serve the endpoint, but does not.
        (Free, 1, 10, &[Recoverable, Held]),
        (Reload, 0, 0, &[Held, Held]),
        (Evict, 1, 0, &[Held, Recoverable]),
        (Free, 1, 0, &[Held, Freed]),
        (Evict, 0, 10, &[Held, Freed]),
        (Free, 0, 10, &[Held, Freed]),
        (Reload, 1, 11, &[Held, Freed]),
        (Free, 1, 11, &[Held, Freed]),
    ];
    hold_day(&fed(&[Held, Held], &[1, 2]), &rows);
}

#[test]
fn a_line_through_a_day() {
    let rows: [Row<&[State]>; 10] = [
        (Free, 0, 10, &[Recoverable, Recoverable]),
        (Free, 1, 10, &[Recoverable, Recoverable]),
        (Reload, 0, 0, &[Held, Recoverable]),
        (Free, 0, 10, &[Held, Recoverable]),
        // The endpoint is not served yet.
        (Evict, 0, 0, &[Recoverable, Recoverable]),
        (Reload, 1, 0, &[Recoverable, Held]),
        (Free, 1, 10, &[Recoverable, Held]),
        (Reload, 0, 0, &[Held, Held]),
        (Evict, 0, 10, &[Held, Held]),
        (Free, 1, 10, &[Held, Held]),
    ];
    hold_day(&line(&[Recoverable, Recoverable]), &rows);
}

/// Whether a protected endpoint has a chain over such slots with the block and none without it, by the
/// words of the documents.
fn cuts_by_words(picture: &Picture, block: usize, is_open: impl Fn(State) -> bool) -> bool {
    let [with, without] = [usize::MAX, block].map(|left_out| fewest_over(picture, left_out, &is_open));
    let is_cut = |(endpoint, facts): (usize, &Endpoint)| {
        facts.protected
            && served_by_words(picture, &with, endpoint)
            && !served_by_words(picture, &without, endpoint)
    };
    (1..).zip(&picture.endpoints).any(is_cut)
}

#[test]
fn evict_and_free_follow_the_words() {
    let mut random = Random::new(11);
    let sizes: Vec<Size> = (0..1000).map(|_| Size::middle(&mut random)).collect();
    let waiting = sizes.into_iter().map(|size| waiting(&mut random, size));
    // Blocks by whether they cut what is served, and what has chains of held or recoverable slots.
    let mut counts = [[0; 2]; 2];
    for picture in small_networks(12, 500).chain(tied_networks(13, 200)).chain(waiting) {
        for (block, numbers) in answers(&picture).into_iter().enumerate() {
            let slots = picture.block_locations(block).map(|location| picture.slots[location - 1]);
            let states: Vec<State> = slots.map(|slot| slot.state).collect();
            let now = cuts_by_words(&picture, block, |state| state == Held);
            let chained = cuts_by_words(&picture, block, |state| state != Freed);
            let due = |turns: bool, cuts: bool| match (turns, cuts) {
                (false, _) => NO_CHANGE,
                (true, true) => PROTECTED,
                (true, false) => 0,
            };
            let evict = due(states.contains(&Held), now);
            let free = due(states.iter().any(|state| *state != Freed), now || chained);
            assert_eq!(numbers, [evict, free], "block {block} of {picture:?}");
            counts[usize::from(now)][usize::from(chained)] += 1;
        }
    }
    assert!(counts.iter().flatten().all(|count| *count > 50), "{counts:?}");
}
