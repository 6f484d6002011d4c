//! Document 01's examples and its table of numbers, with those that 02 adds.

use crate::edition::{FIRST, MAX_BLOCKS, MAX_BLOCK_SIZE, MAX_ENDPOINTS, MAX_EVIDENCE_BYTES};
use crate::edition::{MAX_LINKS, MAX_PICTURE_BYTES, MAX_SLOTS};
use crate::picture::State;
use crate::price::{MAX_RECORDS, RECORD_BYTES};
use crate::samples::{all, case, case_a, files, longest, wide, A_BYTES, A_EVIDENCE};
use crate::{check, choose, evict, free, listing, pack, read, refusals, reload, show, weigh, Picture};
use crate::{lists_of, write, Lists};

fn bytes_of(letter: char) -> Vec<u8> {
    pack(&case(letter))
}

pub fn evidence_of(picture: &[u8]) -> Vec<u8> {
    let mut buffer = vec![0xEE; MAX_EVIDENCE_BYTES + 11];
    let length = choose(picture, &mut buffer).expect("an accepted picture");
    assert!(buffer[length..].iter().all(|byte| *byte == 0xEE));
    buffer.truncate(length);
    buffer
}

/// Served weight and, unless the verdict is "none", block and loss.
pub fn choice_of(picture: &[u8]) -> (u32, Option<(u8, u32)>) {
    let head = evidence_of(picture);
    let number = |bytes: &[u8]| bytes.iter().fold(0, |sum, byte| sum * 256 + u32::from(*byte));
    let chosen = (head[0] % 16 == 1).then(|| (head[1], number(&head[6..9])));
    (number(&head[3..6]), chosen)
}

#[test]
fn case_a_is_read_and_written() {
    assert_eq!(read(&A_BYTES), Ok(case_a()));
    assert_eq!(pack(&case_a()), A_BYTES);
}

#[test]
fn case_a_has_the_printed_evidence() {
    assert_eq!(evidence_of(&A_BYTES), A_EVIDENCE);
    assert_eq!(check(&A_BYTES, &A_EVIDENCE), Ok(()));
    assert_eq!(weigh(&A_BYTES, 0), Ok((42, 30, 1)));
    assert_eq!(weigh(&A_BYTES, 1), Ok((42, 12, 0)));
}

#[test]
fn case_a_has_the_printed_listing() {
    let lines =
        ["served 42", "block 0 lost 30 mark 1", "block 1 lost 12 mark 0", "choose 1 lost 12", ""];
    assert_eq!(listing(&A_BYTES), lines.join("\n"));
    assert_eq!(listing(&bytes_of('G')), "served 0\nchoose none\n");
    assert_eq!(listing(&[]), "refused 1\n");
}

pub fn file(path: &str) -> Vec<u8> {
    let path = format!("{}/../{path}", env!("CARGO_MANIFEST_DIR"));
    std::fs::read(&path).unwrap_or_else(|error| panic!("{path}: {error}"))
}

/// The files that the program and the C example are run on are the samples, with their listings.
#[test]
fn the_sample_files_are_the_samples() {
    for (name, picture) in files() {
        assert!(file(&format!("examples/{name}.picture")) == picture, "{name}.picture");
        assert_eq!(file(&format!("examples/{name}.listing")), listing(&picture).into_bytes(), "{name}");
    }
}

/// What the C example `layout` is held to is case A: its bytes, their number, and the choice.
#[test]
fn the_lines_of_layout_are_case_a() {
    let bytes = A_BYTES.map(|byte| format!("{byte:02X}")).join(" ");
    let listed = listing(&A_BYTES);
    let choice = listed.lines().last().expect("a line for the choice");
    let lines = format!("{bytes}\n{} bytes\n{choice}\nstatus 0\n", A_BYTES.len());
    assert_eq!(file("examples/layout.lines"), lines.into_bytes());
}

/// The number that the header for C gives this name.
fn in_header(name: &str) -> usize {
    let header = String::from_utf8(file("include/blockplan.h")).expect("text");
    let words: Vec<&str> = header.split_whitespace().filter(|word| *word != "=").collect();
    let value = |pair: &[&str]| pair[1].trim_end_matches(',').parse().ok();
    let named = words.windows(2).filter(|pair| pair[0] == name);
    named.filter_map(value).next().unwrap_or_else(|| panic!("{name} has no number"))
}

/// The header for C has the limits that this implementation has.
#[test]
fn the_header_has_the_limits() {
    let sizes = [
        ("BLOCK_SIZE_MAX", MAX_BLOCK_SIZE),
        ("SLOTS_MAX", MAX_SLOTS),
        ("BLOCKS_MAX", MAX_BLOCKS),
        ("ENDPOINTS_MAX", MAX_ENDPOINTS),
        ("LINKS_MAX", MAX_LINKS),
        ("PICTURE_MAX", MAX_PICTURE_BYTES),
        ("EVIDENCE_MAX", MAX_EVIDENCE_BYTES),
        ("RECORD_BYTES", RECORD_BYTES),
        ("RECORDS_MAX", MAX_RECORDS),
    ];
    for (name, value) in sizes {
        assert_eq!(in_header(&format!("BLOCKPLAN_{name}")), value, "{name}");
    }
}

/// The header for C and the library have the numbers that this implementation has.
#[test]
fn the_header_has_the_numbers() {
    let library = include_str!("../../crates/picture/src/refusals.rt");
    let refusals = [
        ("SHORT", refusals::SHORT),
        ("EDITION", refusals::EDITION),
        ("BLOCKS", refusals::BLOCKS),
        ("COUNTS", refusals::COUNTS),
        ("STATE", refusals::STATE),
        ("LINK", refusals::LINK),
        ("FILL", refusals::FILL),
        ("NO_BLOCK", refusals::NO_BLOCK),
        ("BUFFER", refusals::BUFFER),
        ("PROTECTED", refusals::PROTECTED),
        ("NO_CHANGE", refusals::NO_CHANGE),
        ("NEAR", refusals::NEAR),
        ("FORM", refusals::FORM),
        ("FOREST", refusals::FOREST),
        ("WEIGHT", refusals::WEIGHT),
        ("VERDICT", refusals::VERDICT),
        ("SERVICE_LOCATION", refusals::SERVICE_LOCATION),
        ("SERVICE_ENDPOINT", refusals::SERVICE_ENDPOINT),
        ("LINK_START", refusals::LINK_START),
        ("RECORDS", refusals::RECORDS),
        ("RECORD_ENDPOINT", refusals::RECORD_ENDPOINT),
    ];
    for (name, value) in refusals {
        assert_eq!(in_header(&format!("BLOCKPLAN_REFUSED_{name}")), usize::from(value), "{name}");
        // The library has them as the variants of an enum: `NO_BLOCK` is `NoBlock`.
        let variant: String =
            name.split('_').map(|word| word[..1].to_string() + &word[1..].to_lowercase()).collect();
        assert!(library.contains(&format!("Refusal::{variant} => {value},")), "{name}");
    }
}

#[test]
fn every_example_has_its_choice() {
    let expected = [
        ('A', 42, Some((1, 12))),
        ('B', 42, Some((1, 12))),
        ('C', 42, None),
        ('D', 60, Some((0, 30))),
        ('E', 42, None),
        ('F', 30, Some((1, 0))),
        ('G', 0, None),
        ('H', 42, Some((1, 12))),
        ('I', 42, Some((1, 12))),
        ('J', 12, Some((1, 12))),
        ('K', 30, None),
        ('M', 0, Some((0, 0))),
    ];
    assert_eq!(expected.len(), all().len());
    for (letter, served, chosen) in expected {
        let picture = bytes_of(letter);
        assert_eq!(choice_of(&picture), (served, chosen), "case {letter}");
        assert_eq!(read(&picture), Ok(case(letter)), "case {letter}");
        assert_eq!(check(&picture, &evidence_of(&picture)), Ok(()), "case {letter}");
    }
}

#[test]
fn both_feeders_of_an_endpoint_go_with_a_block_of_fifteen() {
    let bytes = pack(&wide());
    assert_eq!(read(&bytes), Ok(wide()));
    assert_eq!(weigh(&bytes, 0), Ok((42, 30, 1)));
    assert_eq!(weigh(&bytes, 1), Ok((42, 12, 0)));
    assert_eq!(weigh(&bytes, 2), Err(refusals::NO_BLOCK));
    assert_eq!(choice_of(&bytes), (42, Some((1, 12))));
    assert_eq!(check(&bytes, &evidence_of(&bytes)), Ok(()));
    let mut after = bytes;
    assert_eq!(evict(&mut after, 0), Err(refusals::PROTECTED));
    assert_eq!(evict(&mut after, 1), Ok(()));
    let mut evicted = wide();
    evicted.slots[15..].iter_mut().for_each(|slot| slot.state = State::Recoverable);
    assert_eq!(read(&after), Ok(evicted));
}

#[test]
fn the_fifteenth_slot_is_of_block_0_and_the_next_of_block_1() {
    let mut picture = wide();
    picture.slots.iter_mut().for_each(|slot| slot.near = false);
    picture.slots[14].near = true;
    assert_eq!(picture.candidates(), [0]);
    picture.slots.swap(14, 15);
    assert_eq!(picture.candidates(), [1]);
}

#[test]
fn examples_keep_their_further_statements() {
    assert_eq!(evidence_of(&bytes_of('E')).len(), 17);
    assert_eq!(evidence_of(&bytes_of('H')), A_EVIDENCE);
    let cycle = evidence_of(&bytes_of('I'));
    assert_eq!(cycle[9..17], [0, 0, 0, 1, 0, 0, 0, 1]);
    assert_eq!(weigh(&bytes_of('I'), 0), Ok((42, 30, 1)));
    let mut evicted = A_BYTES;
    assert_eq!(evict(&mut evicted, 1), Ok(()));
    assert_eq!(evicted[7..9], [0x25, 0xB0]);
    assert_eq!(evicted, *bytes_of('K'));
}

#[test]
fn numbers_1_to_7_17_and_18_by_example() {
    let changed = |place: usize, value: u8| {
        let mut bytes = A_BYTES.to_vec();
        bytes[place] = value;
        bytes
    };
    let link_to_5 = pack(&Picture { links: vec![(0, 1), (0, 2), (1, 3), (0, 5)], ..case_a() });
    let serving = |first| pack(&Picture { serving: vec![first, (2, 1), (4, 2)], ..case_a() });
    let spare_byte = [&A_BYTES[..], &[0]].concat();
    let examples = [
        (refusals::SHORT, Vec::new()),
        (refusals::EDITION, changed(0, 0x32)),
        (refusals::BLOCKS, changed(0, 0x13)),
        (refusals::COUNTS, changed(3, 201)),
        (refusals::STATE, changed(7, 0xE4)),
        (refusals::LINK, link_to_5),
        (refusals::FILL, spare_byte),
        (refusals::SERVICE_LOCATION, serving((5, 1))),
        (refusals::SERVICE_ENDPOINT, serving((1, 3))),
    ];
    for (number, picture) in examples {
        let mut kept = picture.clone();
        let mut buffer = [0xEE; 43];
        assert_eq!(read(&picture), Err(number));
        assert_eq!(weigh(&picture, 0), Err(number));
        assert_eq!(choose(&picture, &mut buffer), Err(number));
        assert_eq!(check(&picture, &A_EVIDENCE), Err(number));
        assert_eq!(evict(&mut kept, 0), Err(number));
        assert_eq!(reload(&mut kept, 0), Err(number));
        assert_eq!(free(&mut kept, 0), Err(number));
        assert!(show(&picture, &A_EVIDENCE).is_empty());
        assert_eq!(listing(&picture), format!("refused {number}\n"));
        assert_eq!((kept, buffer), (picture, [0xEE; 43]));
    }
}

#[test]
fn numbers_8_to_12_by_example() {
    assert_eq!(weigh(&A_BYTES, 2), Err(refusals::NO_BLOCK));
    let mut buffer = [0xEE; 42];
    assert_eq!(choose(&A_BYTES, &mut buffer), Err(refusals::BUFFER));
    assert_eq!(buffer, [0xEE; 42]);
    let mut picture = A_BYTES;
    assert_eq!(evict(&mut picture, 0), Err(refusals::PROTECTED));
    assert_eq!(free(&mut picture, 0), Err(refusals::PROTECTED));
    assert_eq!(reload(&mut picture, 0), Err(refusals::NO_CHANGE));
    assert_eq!(picture, A_BYTES);
    let mut evicted = bytes_of('K');
    assert_eq!(reload(&mut evicted, 1), Err(refusals::NEAR));
    assert_eq!(evicted, bytes_of('K'));
}

#[test]
fn numbers_13_to_16_by_example() {
    let changed = |place: usize, value: u8| {
        let mut bytes = A_EVIDENCE;
        bytes[place] = value;
        bytes
    };
    assert_eq!(check(&A_BYTES, &[]), Err(refusals::FORM));
    assert_eq!(check(&A_BYTES, &changed(16, 2)), Err(refusals::FOREST));
    assert_eq!(check(&A_BYTES, &changed(20, 29)), Err(refusals::WEIGHT));
    assert_eq!(check(&A_BYTES, &changed(0, 0x10)), Err(refusals::VERDICT));
}

#[test]
fn limits_are_those_of_the_documents() {
    let header = |block_size: u8, slots: u8, endpoints: u8| {
        let bits = 3 * usize::from(slots) + 17 * usize::from(endpoints);
        let mut bytes = vec![0x10 | block_size, slots, 0, endpoints, 0, 0, 0];
        bytes.resize(7 + bits.div_ceil(8), 0);
        read(&bytes).map(|_| ())
    };
    assert_eq!(header(1, 60, 200), Ok(()));
    assert_eq!(header(8, 240, 0), Ok(()));
    assert_eq!(header(1, 61, 0), Err(refusals::BLOCKS));
    assert_eq!(header(9, 9, 0), Ok(()));
    assert_eq!(header(15, 240, 0), Ok(()));
    assert_eq!(header(15, 16, 0), Err(refusals::BLOCKS));
    assert_eq!(header(15, 255, 0), Err(refusals::BLOCKS));
    assert_eq!(header(9, 9, 201), Err(refusals::COUNTS));
    assert_eq!(header(0, 4, 0), Err(refusals::BLOCKS));
    assert_eq!(header(1, 0, 0), Err(refusals::BLOCKS));
    assert_eq!(header(1, 60, 201), Err(refusals::COUNTS));
    assert_eq!(FIRST.evidence_bytes(240, 60), 29589);
    assert_eq!(FIRST.max_evidence_bytes(), 29589);
    assert_eq!(FIRST.max_picture_bytes(), 8522);
}

#[test]
fn acts_change_the_named_states_only() {
    let mut picture = Picture { near_limit: 4, ..case('K') };
    picture.slots[3].state = State::Freed;
    let mut bytes = pack(&picture);
    assert_eq!(reload(&mut bytes, 1), Ok(()));
    picture.slots[2].state = State::Held;
    assert_eq!(read(&bytes), Ok(picture.clone()));
    assert_eq!(free(&mut bytes, 1), Ok(()));
    picture.slots[2].state = State::Freed;
    assert_eq!(read(&bytes), Ok(picture));
    assert_eq!(free(&mut bytes, 1), Err(refusals::NO_CHANGE));
}

#[test]
fn far_slots_are_reloaded_over_the_near_limit() {
    let mut picture = Picture { near_limit: 0, ..case('K') };
    picture.slots[2].near = false;
    picture.slots[3].near = false;
    assert_eq!(reload(&mut pack(&picture), 1), Ok(()));
}

#[test]
fn a_slot_of_depth_0_is_no_parent() {
    // Only the cycle 1-3-1: slot 3 hangs on slot 1, which is not reached.
    let mut evidence = evidence_of(&bytes_of('I'));
    evidence[13..15].copy_from_slice(&[1, 1]);
    assert_eq!(check(&bytes_of('I'), &evidence), Err(refusals::FOREST));
}

#[test]
fn shape_comes_before_every_forest() {
    let mut evidence = A_EVIDENCE;
    evidence[16] = 2;
    evidence[34] = 2;
    assert_eq!(check(&A_BYTES, &evidence), Err(refusals::FORM));
}

#[test]
fn show_gives_the_chosen_section() {
    assert_eq!(show(&A_BYTES, &A_EVIDENCE), &A_EVIDENCE[30..43]);
    let none = evidence_of(&bytes_of('C'));
    assert_eq!(show(&bytes_of('C'), &none).as_ptr_range(), none[..0].as_ptr_range());
}

/// Case A's lists by its description.
fn lists_a() -> Lists {
    Lists {
        edition: 1,
        block_size: 2,
        near_limit: 2,
        states: vec![0; 4],
        near: vec![true; 4],
        weights: vec![30, 12],
        protected: vec![true, false],
        links: vec![[0, 1], [0, 2], [1, 3], [0, 4]],
        serving: vec![[1, 1], [2, 1], [4, 2]],
    }
}

type Change = fn(&mut Lists);

/// Case A's lists with a change.
fn changed_a(change: Change) -> Lists {
    let mut lists = lists_a();
    change(&mut lists);
    lists
}

/// What write answers with a buffer of this length, and the picture that it wrote.
pub fn written(lists: &Lists, room: usize) -> Result<Vec<u8>, u8> {
    // Ones, so that bits which the picture has as zeros are seen to be written.
    let mut buffer = vec![0xFF; room];
    let answer = write(lists, &mut buffer);
    let kept = answer.unwrap_or(0);
    assert!(buffer[kept..].iter().all(|byte| *byte == 0xFF), "bytes beyond stay");
    buffer.truncate(kept);
    answer.map(|_| buffer)
}

pub const ROOM: usize = MAX_PICTURE_BYTES + 11;

#[test]
fn lists_of_case_a_give_its_bytes() {
    assert_eq!(lists_of(&case_a()), lists_a());
    for room in [A_BYTES.len(), A_BYTES.len() + 1, ROOM] {
        assert_eq!(written(&lists_a(), room), Ok(A_BYTES.to_vec()), "{room} bytes");
    }
    for room in 0..A_BYTES.len() {
        assert_eq!(written(&lists_a(), room), Err(refusals::BUFFER), "{room} bytes");
    }
}

#[test]
fn every_sample_is_written_as_it_was_read() {
    for (name, bytes) in files() {
        if let Ok(picture) = read(&bytes) {
            assert_eq!(written(&lists_of(&picture), bytes.len()), Ok(bytes), "{name}");
        }
    }
    assert_eq!(pack(&longest()).len(), FIRST.max_picture_bytes());
}

#[test]
fn lists_are_refused_with_the_readers_numbers() {
    let examples: [(u8, Change); 32] = [
        (refusals::BLOCKS, |lists| lists.near.truncate(3)),
        (refusals::BLOCKS, |lists| lists.near.push(true)),
        (refusals::BLOCKS, |lists| lists.states.truncate(2)),
        (refusals::BLOCKS, |lists| lists.states.resize(6, 0)),
        (refusals::BLOCKS, |lists| lists.block_size = 0),
        (refusals::BLOCKS, |lists| lists.block_size = 3),
        (refusals::BLOCKS, |lists| lists.block_size = 16 + 2),
        (refusals::BLOCKS, |lists| lists.block_size = u32::MAX),
        (refusals::BLOCKS, |lists| set_slots(lists, 2, 0)),
        (refusals::BLOCKS, |lists| set_slots(lists, 1, 61)),
        (refusals::BLOCKS, |lists| set_slots(lists, 15, 16)),
        (refusals::BLOCKS, |lists| set_slots(lists, 16, 16)),
        (refusals::BLOCKS, |lists| set_slots(lists, 15, 255)),
        (refusals::BLOCKS, |lists| set_slots(lists, 8, 248)),
        (refusals::BLOCKS, |lists| set_slots(lists, 2, 256 + 4)),
        (refusals::COUNTS, |lists| lists.protected.truncate(1)),
        (refusals::COUNTS, |lists| lists.protected.push(true)),
        (refusals::COUNTS, |lists| lists.weights.truncate(1)),
        (refusals::COUNTS, |lists| lists.weights.push(1)),
        (refusals::COUNTS, |lists| set_endpoints(lists, 201)),
        (refusals::COUNTS, |lists| lists.links.resize(2001, [0, 1])),
        (refusals::COUNTS, |lists| lists.serving.resize(2001, [1, 1])),
        (refusals::STATE, |lists| lists.states[3] = 3),
        (refusals::STATE, |lists| lists.states[0] = 4),
        (refusals::LINK, |lists| lists.links[3][0] = 5),
        (refusals::LINK, |lists| lists.links[3][1] = 256),
        (refusals::SERVICE_LOCATION, |lists| lists.serving[0][0] = 256 + 1),
        (refusals::SERVICE_LOCATION, |lists| lists.serving[2] = [u16::MAX, 256 + 2]),
        (refusals::SERVICE_ENDPOINT, |lists| lists.serving[0][1] = 0),
        (refusals::SERVICE_ENDPOINT, |lists| lists.serving[2][1] = 3),
        (refusals::SERVICE_ENDPOINT, |lists| lists.serving[2][1] = 256 + 2),
        (refusals::SERVICE_ENDPOINT, |lists| set_endpoints(lists, 0)),
    ];
    for (row, (number, change)) in examples.into_iter().enumerate() {
        for room in [0, A_BYTES.len(), ROOM] {
            assert_eq!(written(&changed_a(change), room), Err(number), "row {row}, {room} bytes");
        }
    }
}

fn set_slots(lists: &mut Lists, block_size: u32, slots: usize) {
    lists.block_size = block_size;
    lists.states.resize(slots, 0);
    lists.near.resize(slots, false);
}

fn set_endpoints(lists: &mut Lists, endpoints: usize) {
    lists.weights.resize(endpoints, 0);
    lists.protected.resize(endpoints, false);
}

#[test]
fn lists_at_the_limits_are_written() {
    let examples: [Change; 8] = [
        |lists| set_slots(lists, 1, 60),
        |lists| set_slots(lists, 8, 240),
        |lists| set_slots(lists, 9, 9),
        |lists| set_slots(lists, 15, 240),
        |lists| set_endpoints(lists, 200),
        |lists| lists.links.resize(2000, [4, 0]),
        |lists| lists.serving.resize(2000, [0, 2]),
        |lists| lists.near_limit = 255,
    ];
    for (row, change) in examples.into_iter().enumerate() {
        let lists = changed_a(change);
        let bytes = written(&lists, ROOM).unwrap_or_else(|number| panic!("row {row} gets {number}"));
        assert_eq!(read(&bytes).map(|picture| lists_of(&picture)), Ok(lists), "row {row}");
    }
}

/// Faults from the last to the first: the number of the first is told, whatever comes behind it.
#[test]
fn lists_are_judged_in_the_readers_order() {
    let faults: [(u8, Change); 10] = [
        (refusals::SERVICE_ENDPOINT, |lists| lists.serving[1][1] = 256 + 1),
        (refusals::SERVICE_LOCATION, |lists| lists.serving[1][0] = 256 + 2),
        (refusals::SERVICE_ENDPOINT, |lists| lists.serving[0][1] = 0),
        (refusals::SERVICE_LOCATION, |lists| lists.serving[0][0] = 5),
        (refusals::LINK, |lists| lists.links[0] = [65535, 65535]),
        (refusals::STATE, |lists| lists.states[3] = 255),
        (refusals::COUNTS, |lists| lists.serving.resize(2001, [5, 3])),
        (refusals::COUNTS, |lists| lists.protected.clear()),
        (refusals::BLOCKS, |lists| lists.block_size = 16),
        (refusals::BLOCKS, |lists| lists.near.clear()),
    ];
    let mut lists = lists_a();
    for (number, fault) in faults {
        fault(&mut lists);
        assert_eq!(written(&lists, ROOM), Err(number));
        assert_eq!(written(&lists, 0), Err(number));
    }
}
