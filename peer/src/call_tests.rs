//! Lists of calls: those on case A by hand, and what the promise over lists forbids and what it allows.

use crate::calls::{broken_promise, make_all, Act, Call};
use crate::edition::SECOND;
use crate::picture::State;
use crate::refusals::number_of;
use crate::samples::{case_a, A_BYTES, SECOND_BYTES};
use crate::{pack, Picture};

use Act::{Evict, Free, Reload};

/// The two bytes with A's states, worked out by hand. A near slot's three bits are 001 where it is held,
/// 011 where it is recoverable and 101 where it is freed; four zeros of the first weight follow.
const HELD: [u8; 2] = [0b_0010_0100, 0b_1001_0000];
pub const RECOVERABLE: [u8; 2] = [0b_0110_1101, 0b_1011_0000];
const BLOCK_1_RECOVERABLE: [u8; 2] = [0b_0010_0101, 0b_1011_0000];
pub const BLOCK_1_FREED: [u8; 2] = [0b_0010_0110, 0b_1101_0000];

/// A call, the number it gets, 0 if it is done, and the states after it.
pub type Row<S> = (Act, u32, u8, S);

/// Case A's bytes in both editions, with this near limit and these states.
pub fn cases(near_limit: u8, states: [u8; 2]) -> [Vec<u8>; 2] {
    let changed = |bytes: &[u8], near_limit_at: usize, states_at: usize| {
        let mut bytes = bytes.to_vec();
        bytes[near_limit_at] = near_limit;
        bytes[states_at..states_at + 2].copy_from_slice(&states);
        bytes
    };
    [changed(&A_BYTES, 2, 7), changed(&SECOND_BYTES, 3, 8)]
}

/// Makes the calls on A with this near limit and these states, in both editions.
pub fn hold_by_hand(near_limit: u8, start: [u8; 2], rows: &[Row<[u8; 2]>]) {
    for edition in 0..2 {
        hold_list(|states| cases(near_limit, states)[edition].clone(), start, rows);
    }
}

/// Makes the calls on the bytes with these states. Every byte beside the states must stay, and every
/// moment keeps the promise to every later one.
pub fn hold_list<S: Copy>(bytes_with: impl Fn(S) -> Vec<u8>, start: S, rows: &[Row<S>]) {
    let mut bytes = bytes_with(start);
    let mut moments = vec![bytes.clone()];
    for (step, (act, block, number, states)) in rows.iter().enumerate() {
        let answer = Call { act: *act, block: *block }.make(&mut bytes);
        assert_eq!(number_of(answer), *number, "call {step}");
        assert_eq!(bytes, bytes_with(*states), "call {step}");
        moments.push(bytes.clone());
        for earlier in &moments {
            assert_eq!(broken_promise(earlier, &bytes), None, "call {step}");
        }
    }
    let calls: Vec<Call> = rows.iter().map(|row| Call { act: row.0, block: row.1 }).collect();
    let mut whole = bytes_with(start);
    let answers = make_all(&mut whole, &calls);
    let numbers = answers.into_iter().map(number_of);
    assert!(numbers.eq(rows.iter().map(|row| row.2)));
    assert_eq!(whole, bytes);
}

#[test]
fn a_list_on_case_a() {
    assert_eq!(cases(2, HELD), [A_BYTES.to_vec(), SECOND_BYTES.to_vec()]);
    let rows = [
        // Both feeders of endpoint 1, which is protected, are in block 0.
        (Evict, 0, 10, HELD),
        (Free, 0, 10, HELD),
        (Reload, 0, 11, HELD),
        // Blocks are 0 and 1.
        (Evict, 2, 8, HELD),
        (Evict, (1 << 8) + 1, 8, HELD),
        (Reload, 1 << 16, 8, HELD),
        (Free, (1 << 24) + 1, 8, HELD),
        // Cuts endpoint 2, which is not protected: document 01's K.
        (Evict, 1, 0, BLOCK_1_RECOVERABLE),
        (Evict, 1, 11, BLOCK_1_RECOVERABLE),
        // Four near slots would be held, and two may be.
        (Reload, 1, 12, BLOCK_1_RECOVERABLE),
        (Evict, 0, 10, BLOCK_1_RECOVERABLE),
        // Cuts nothing any more.
        (Free, 1, 0, BLOCK_1_FREED),
        (Free, 1, 11, BLOCK_1_FREED),
        (Evict, 1, 11, BLOCK_1_FREED),
        (Free, u32::MAX, 8, BLOCK_1_FREED),
        (Free, 0, 10, BLOCK_1_FREED),
    ];
    hold_by_hand(2, HELD, &rows);
}

#[test]
fn a_reloaded_block_comes_back_and_a_freed_one_does_not() {
    let rows = [
        (Evict, 1, 0, BLOCK_1_RECOVERABLE),
        // Four near slots are held then, as many as may be.
        (Reload, 1, 0, HELD),
        (Reload, 1, 11, HELD),
        (Evict, 1, 0, BLOCK_1_RECOVERABLE),
        (Reload, 1, 0, HELD),
        (Free, 1, 0, BLOCK_1_FREED),
        // There is room for it, but nothing that could come back.
        (Reload, 1, 11, BLOCK_1_FREED),
        (Evict, 1, 11, BLOCK_1_FREED),
        (Reload, 1, 11, BLOCK_1_FREED),
    ];
    hold_by_hand(4, HELD, &rows);
}

/// In document 01's G nothing is held, so endpoint 1 is protected and not served. From its reload on no
/// call takes it away again.
#[test]
fn an_endpoint_that_is_served_after_a_reload_stays_served() {
    let rows = [
        (Evict, 0, 11, RECOVERABLE),
        (Reload, 0, 0, BLOCK_1_RECOVERABLE),
        (Evict, 0, 10, BLOCK_1_RECOVERABLE),
        (Free, 0, 10, BLOCK_1_RECOVERABLE),
        (Reload, 1, 12, BLOCK_1_RECOVERABLE),
        (Free, 1, 0, BLOCK_1_FREED),
        (Free, 0, 10, BLOCK_1_FREED),
    ];
    hold_by_hand(2, RECOVERABLE, &rows);
    let back = broken_promise(&cases(2, BLOCK_1_RECOVERABLE)[0], &cases(2, RECOVERABLE)[0]);
    assert_eq!(back.as_deref(), Some(LOST_1));
}

/// Makes the calls on a block of A with room for all near slots. The state of one slot, which is recoverable
/// at the start, is all that turns.
fn hold_one_slot(block: u32, states: impl Fn(&mut Picture, State), rows: &[(Act, u8, State)]) {
    let bytes_with = |state| {
        let mut picture = Picture { near_limit: 4, ..case_a() };
        states(&mut picture, state);
        pack(&picture)
    };
    let mut bytes = bytes_with(State::Recoverable);
    for (act, number, then) in rows {
        assert_eq!(number_of(Call { act: *act, block }.make(&mut bytes)), *number);
        assert_eq!(bytes, bytes_with(*then));
    }
}

/// Where a block has a freed slot and another one, the acts turn the other one alone.
#[test]
fn a_freed_slot_stays_freed_beside_one_that_is_turned() {
    let states = |picture: &mut Picture, fourth| {
        turn(picture, &[3], State::Freed);
        turn(picture, &[4], fourth);
    };
    let rows = [
        (Reload, 0, State::Held),
        (Reload, 11, State::Held),
        (Evict, 0, State::Recoverable),
        (Evict, 11, State::Recoverable),
        (Reload, 0, State::Held),
        (Free, 0, State::Freed),
        (Reload, 11, State::Freed),
    ];
    hold_one_slot(1, states, &rows);
}

/// Reload cuts nothing, whatever hangs on the block: slot 1 feeds endpoint 1, which is protected.
#[test]
fn a_block_that_may_not_go_is_reloaded() {
    let rows = [
        (Evict, 10, State::Recoverable),
        (Reload, 0, State::Held),
        (Evict, 10, State::Held),
        (Reload, 11, State::Held),
    ];
    hold_one_slot(0, |picture, second| turn(picture, &[2], second), &rows);
}

type Change = fn(&mut Picture);

const NONE: Change = |_| {};

/// Case A with the first change, and that with the second one too.
fn two_moments(earlier: Change, later: Change) -> [Vec<u8>; 2] {
    let mut picture = case_a();
    earlier(&mut picture);
    let before = pack(&picture);
    later(&mut picture);
    [before, pack(&picture)]
}

/// Turns these slots.
fn turn(picture: &mut Picture, slots: &[usize], state: State) {
    for slot in slots {
        picture.slots[slot - 1].state = state;
    }
}

const LOST_1: &str = "endpoint 1 is protected and served before, not after";
const LOST_2: &str = "endpoint 2 is protected and served before, not after";
pub const GONE_1: &str =
    "endpoint 1 is protected and has a chain of held or recoverable slots before, not after";
const GONE_2: &str =
    "endpoint 2 is protected and has a chain of held or recoverable slots before, not after";

/// The sentence that is broken, a change to the earlier moment and what the later one has besides.
const BROKEN: [(&str, Change, Change); 26] = [
    ("edition is 1 before, 2 after", NONE, |p| p.edition = SECOND),
    ("block size is 2 before, 1 after", NONE, |p| p.block_size = 1),
    ("number of slots is 4 before, 6 after", NONE, |p| p.slots.resize(6, p.slots[0])),
    ("near limit is 2 before, 3 after", NONE, |p| p.near_limit = 3),
    ("number of endpoints is 2 before, 3 after", NONE, |p| p.endpoints.push(p.endpoints[1])),
    ("number of links is 4 before, 5 after", NONE, |p| p.links.push((0, 4))),
    ("number of serving links is 3 before, 2 after", NONE, |p| p.serving.truncate(2)),
    ("near mark of slot 1 is true before, false after", NONE, |p| p.slots[0].near = false),
    (
        "near mark of slot 4 is false before, true after",
        |p| p.slots[3].near = false,
        |p| p.slots[3].near = true,
    ),
    ("weight of endpoint 2 is 12 before, 13 after", NONE, |p| p.endpoints[1].weight = 13),
    ("protected mark of endpoint 1 is true before, false after", NONE, |p| {
        p.endpoints[0].protected = false
    }),
    ("protected mark of endpoint 2 is false before, true after", NONE, |p| {
        p.endpoints[1].protected = true
    }),
    ("link 4 is (0, 4) before, (1, 4) after", NONE, |p| p.links[3] = (1, 4)),
    // The same links in another order.
    ("link 1 is (0, 1) before, (0, 2) after", NONE, |p| p.links.swap(0, 1)),
    ("serving link 1 is (1, 1) before, (2, 1) after", NONE, |p| p.serving[0] = (2, 1)),
    (LOST_1, NONE, |p| turn(p, &[1, 2], State::Recoverable)),
    (LOST_1, NONE, |p| turn(p, &[1, 2], State::Freed)),
    // Protection does not go by weight: document 01's J.
    (LOST_1, |p| p.endpoints[0].weight = 0, |p| turn(p, &[1, 2], State::Freed)),
    (LOST_2, |p| p.endpoints[1].protected = true, |p| turn(p, &[3, 4], State::Recoverable)),
    // Slot 3, which is still held, has its chain over slot 1.
    (LOST_2, protect_at_slot_3, |p| turn(p, &[1], State::Recoverable)),
    // Endpoint 1 is protected and not served before.
    (GONE_1, |p| turn(p, &[1, 2], State::Recoverable), |p| turn(p, &[1, 2], State::Freed)),
    (
        GONE_1,
        |p| {
            turn(p, &[1], State::Freed);
            turn(p, &[2], State::Recoverable);
            p.endpoints[0].weight = 0;
        },
        |p| turn(p, &[2], State::Freed),
    ),
    // A chain of a recoverable slot and a held one, of which either goes.
    (GONE_2, wait_for_slot_1, |p| turn(p, &[1], State::Freed)),
    (GONE_2, wait_for_slot_1, |p| turn(p, &[3], State::Freed)),
    (
        "slot 4 is freed before, not after",
        |p| turn(p, &[3, 4], State::Freed),
        |p| turn(p, &[4], State::Held),
    ),
    (
        "slot 3 is freed before, not after",
        |p| turn(p, &[3, 4], State::Freed),
        |p| turn(p, &[3], State::Recoverable),
    ),
];

/// Endpoint 2 is protected, and slot 3 serves it alone.
fn protect_at_slot_3(picture: &mut Picture) {
    picture.endpoints[1].protected = true;
    picture.serving[2] = (3, 2);
}

/// Slot 3 has its chain over slot 1.
fn wait_for_slot_1(picture: &mut Picture) {
    protect_at_slot_3(picture);
    turn(picture, &[1], State::Recoverable);
}

#[test]
fn every_sentence_of_the_promise_can_be_broken() {
    for (sentence, earlier, later) in BROKEN {
        let [earlier, later] = two_moments(earlier, later);
        assert_eq!(broken_promise(&earlier, &later).as_deref(), Some(sentence));
    }
}

#[test]
fn bytes_that_are_no_picture_break_the_promise() {
    let spare_byte = [&A_BYTES[..], &[0]].concat();
    let later = broken_promise(&A_BYTES, &spare_byte);
    assert_eq!(later.as_deref(), Some("the later bytes are refused with 7"));
    let earlier = broken_promise(&spare_byte, &A_BYTES);
    assert_eq!(earlier.as_deref(), Some("the earlier bytes are refused with 7"));
    let state_3 = &cases(2, [0b_1110_0100, 0b_1001_0000])[0];
    let later = broken_promise(&A_BYTES, state_3);
    assert_eq!(later.as_deref(), Some("the later bytes are refused with 5"));
}

/// What a list may do, by the earlier moment and what the later one has besides.
const KEPT: [(Change, Change); 12] = [
    (NONE, NONE),
    // Endpoint 2 is served before and not after, and is not protected.
    (NONE, |p| turn(p, &[4], State::Recoverable)),
    (NONE, |p| turn(p, &[3, 4], State::Freed)),
    // Endpoint 1 keeps one of its feeders.
    (NONE, |p| turn(p, &[1, 3], State::Freed)),
    // Endpoint 1 is protected and not served before, and keeps one of the slots that could.
    (|p| turn(p, &[1, 2], State::Recoverable), |p| turn(p, &[1], State::Freed)),
    // One of these is reloaded, and the other one freed.
    (
        |p| turn(p, &[1, 2], State::Recoverable),
        |p| {
            turn(p, &[1], State::Held);
            turn(p, &[2], State::Freed);
        },
    ),
    // No slot could serve it before.
    (|p| turn(p, &[1, 2], State::Freed), |p| turn(p, &[3, 4], State::Freed)),
    // Endpoint 2 has such a chain before and not after, and is not protected.
    (|p| turn(p, &[3, 4], State::Recoverable), |p| turn(p, &[3, 4], State::Freed)),
    // Endpoint 2 is protected, but no link leads to slot 4: document 01's F.
    (
        |p| {
            p.links.truncate(3);
            p.endpoints[1].protected = true;
        },
        |p| turn(p, &[3, 4], State::Freed),
    ),
    (|p| turn(p, &[1, 2, 3, 4], State::Recoverable), |p| turn(p, &[1, 2, 3, 4], State::Held)),
    // More near slots than the limit, before and after: the promise does not speak of it.
    (|p| turn(p, &[3], State::Recoverable), |p| turn(p, &[3], State::Held)),
    // An endpoint that the origin serves needs no slot.
    (|p| p.serving[0] = (0, 1), |p| turn(p, &[1, 2, 3, 4], State::Freed)),
];

#[test]
fn what_lists_may_do_breaks_no_promise() {
    for (row, (earlier, later)) in KEPT.into_iter().enumerate() {
        let [earlier, later] = two_moments(earlier, later);
        assert_eq!(broken_promise(&earlier, &later), None, "row {row}");
    }
}
