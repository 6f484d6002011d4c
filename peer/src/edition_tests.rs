//! The second edition: the counterparts of document 01's examples and numbers, what it alone has room
//! for, and what it has in common with the first.

use crate::bits::{BitReader, BitWriter};
use crate::edition::{EDITIONS, FIRST, MAX_EVIDENCE_BYTES, MAX_PICTURE_BYTES, SECOND};
use crate::foreign::{self, GROWTHS};
use crate::networks::{long_chain, network, Size, SHAPES};
use crate::picture::State;
use crate::random::Random;
use crate::random_tests::{small_networks, tied_networks};
use crate::refusals::number_of;
use crate::samples::{all, case, case_a, in_second, longest_evidence, longest_second, second};
use crate::samples::{second_larger, A_BYTES, A_EVIDENCE, SECOND_BYTES, SECOND_EVIDENCE};
use crate::tests::{choice_of, evidence_of, written, ROOM};
use crate::{check, choose, evict, free, listing, pack, read, refusals, reload, show, weigh};
use crate::{lists_of, Edition, Lists, Picture};

const LINES: &str = "served 42\nblock 0 lost 30 mark 1\nblock 1 lost 12 mark 0\nchoose 1 lost 12\n";

/// A header of the second edition, and zeros behind it up to the length that it says: held far slots,
/// weightless endpoints and no links.
fn with_header(block_size: u32, slots: u32, near_limit: u32, endpoints: u32) -> Vec<u8> {
    let mut fields = BitWriter::new();
    for (width, value) in [(4, 2), (4, block_size), (12, slots), (12, near_limit), (8, endpoints)] {
        fields.field(width, value);
    }
    fields.field(24, 0);
    for _ in 0..3 * slots + 17 * endpoints {
        fields.field(1, 0);
    }
    fields.into_bytes()
}

fn refusal(bytes: &[u8]) -> u8 {
    number_of(read(bytes))
}

#[test]
fn the_second_case_a_is_read_and_written() {
    assert_eq!(read(&SECOND_BYTES), Ok(second()));
    assert_eq!(pack(&second()), SECOND_BYTES);
    let lists = Lists { edition: 2, ..lists_of(&case_a()) };
    assert_eq!(lists_of(&second()), lists);
    for room in [SECOND_BYTES.len(), SECOND_BYTES.len() + 1, ROOM] {
        assert_eq!(written(&lists, room), Ok(SECOND_BYTES.to_vec()), "{room} bytes");
    }
    for room in 0..SECOND_BYTES.len() {
        assert_eq!(written(&lists, room), Err(refusals::BUFFER), "{room} bytes");
    }
}

#[test]
fn the_second_case_a_has_its_evidence() {
    assert_eq!(evidence_of(&SECOND_BYTES), SECOND_EVIDENCE);
    assert_eq!(check(&SECOND_BYTES, &SECOND_EVIDENCE), Ok(()));
    assert_eq!(show(&SECOND_BYTES, &SECOND_EVIDENCE), &SECOND_EVIDENCE[38..55]);
    assert_eq!(weigh(&SECOND_BYTES, 0), Ok((42, 30, 1)));
    assert_eq!(weigh(&SECOND_BYTES, 1), Ok((42, 12, 0)));
    assert_eq!(listing(&SECOND_BYTES), LINES);
    assert_eq!(evidence_of(&pack(&in_second(case('E')))).len(), 9 + 3 * 4);
    let mut short = [0xEE; 54];
    assert_eq!(choose(&SECOND_BYTES, &mut short), Err(refusals::BUFFER));
    assert_eq!(short, [0xEE; 54]);
}

/// Eviction turns the same state bits as in the first edition, a byte further on.
#[test]
fn acts_change_the_states_of_the_second_case_a() {
    let mut bytes = SECOND_BYTES;
    assert_eq!(evict(&mut bytes, 0), Err(refusals::PROTECTED));
    assert_eq!(free(&mut bytes, 0), Err(refusals::PROTECTED));
    assert_eq!(reload(&mut bytes, 0), Err(refusals::NO_CHANGE));
    assert_eq!(evict(&mut bytes, 2), Err(refusals::NO_BLOCK));
    assert_eq!(bytes, SECOND_BYTES);
    assert_eq!(evict(&mut bytes, 1), Ok(()));
    assert_eq!(bytes[8..10], [0x25, 0xB0]);
    assert_eq!(bytes, *pack(&in_second(case('K'))));
    assert_eq!(reload(&mut bytes, 1), Err(refusals::NEAR));
    assert_eq!(free(&mut bytes, 1), Ok(()));
    let mut freed = second();
    freed.slots[2..].iter_mut().for_each(|slot| slot.state = State::Freed);
    assert_eq!(read(&bytes), Ok(freed));
}

/// The near limit of the second edition is read in all its twelve bits.
#[test]
fn near_limits_beyond_a_byte_count() {
    let mut picture = long_chain(SECOND, 5, 300, 10);
    picture.slots[295..].iter_mut().for_each(|slot| slot.state = State::Recoverable);
    for (near_limit, due) in [(299, Err(refusals::NEAR)), (300, Ok(())), (43, Err(refusals::NEAR))] {
        picture.near_limit = near_limit;
        assert_eq!(reload(&mut pack(&picture), 59), due, "near limit {near_limit}");
    }
}

#[test]
fn numbers_1_to_7_17_and_18_of_the_second_edition() {
    let changed = |place: usize, value: u8| {
        let mut bytes = SECOND_BYTES.to_vec();
        bytes[place] = value;
        bytes
    };
    let link_to_5 = pack(&Picture { links: vec![(0, 1), (0, 2), (1, 3), (0, 5)], ..second() });
    let link_to_256 = pack(&Picture { links: vec![(0, 1), (256, 2)], ..second() });
    let serving = |first| pack(&Picture { serving: vec![first, (2, 1), (4, 2)], ..second() });
    let examples = [
        (refusals::SHORT, SECOND_BYTES[..6].to_vec()),
        (refusals::SHORT, SECOND_BYTES[..7].to_vec()),
        (refusals::SHORT, SECOND_BYTES[..8].to_vec()),
        (refusals::SHORT, SECOND_BYTES[..33].to_vec()),
        (refusals::EDITION, changed(0, 0x32)),
        (refusals::EDITION, changed(0, 0x02)),
        (refusals::BLOCKS, changed(0, 0x23)),
        (refusals::BLOCKS, changed(0, 0x20)),
        (refusals::BLOCKS, changed(1, 0x10)),
        (refusals::COUNTS, changed(4, 201)),
        (refusals::COUNTS, changed(5, 0x7D)),
        (refusals::STATE, changed(8, 0xE4)),
        (refusals::LINK, link_to_5),
        (refusals::LINK, link_to_256),
        (refusals::FILL, [&SECOND_BYTES[..], &[0]].concat()),
        (refusals::FILL, changed(33, 0x81)),
        (refusals::SERVICE_LOCATION, serving((5, 1))),
        (refusals::SERVICE_LOCATION, serving((256 + 1, 1))),
        (refusals::SERVICE_ENDPOINT, serving((1, 3))),
        (refusals::SERVICE_ENDPOINT, serving((1, 0))),
    ];
    for (row, (number, picture)) in examples.into_iter().enumerate() {
        let mut kept = picture.clone();
        let mut buffer = [0xEE; 55];
        assert_eq!(read(&picture), Err(number), "row {row}");
        assert_eq!(weigh(&picture, 0), Err(number), "row {row}");
        assert_eq!(choose(&picture, &mut buffer), Err(number), "row {row}");
        assert_eq!(check(&picture, &SECOND_EVIDENCE), Err(number), "row {row}");
        assert_eq!(evict(&mut kept, 0), Err(number), "row {row}");
        assert_eq!(reload(&mut kept, 0), Err(number), "row {row}");
        assert_eq!(free(&mut kept, 0), Err(number), "row {row}");
        assert!(show(&picture, &SECOND_EVIDENCE).is_empty(), "row {row}");
        assert_eq!(listing(&picture), format!("refused {number}\n"), "row {row}");
        assert_eq!((kept, buffer), (picture, [0xEE; 55]), "row {row}");
    }
}

/// Under seven bytes nothing is asked of the edition; with seven the edition comes first, and then its
/// header's eighth byte, before anything that the header says.
#[test]
fn short_headers_are_judged_in_order() {
    for first in 0..=255 {
        for length in 1..=6 {
            let mut bytes = vec![0xFF; length];
            bytes[0] = first;
            assert_eq!(refusal(&bytes), refusals::SHORT, "first byte {first}, {length} bytes");
        }
        let due = match first >> 4 {
            // Of the first edition these are headers with n 255, so the block size does not matter.
            1 => refusals::BLOCKS,
            2 => refusals::SHORT,
            _ => refusals::EDITION,
        };
        let bytes = [&[first], &[0xFF; 6][..]].concat();
        assert_eq!(refusal(&bytes), due, "first byte {first}, 7 bytes");
    }
    assert_eq!(refusal(&[]), refusals::SHORT);
    assert_eq!(refusal(&[0x22, 0, 0, 0, 0, 0, 0]), refusals::SHORT);
    assert_eq!(refusal(&[0x22, 0, 0, 0, 0, 0, 0, 0]), refusals::BLOCKS);
    assert_eq!(refusal(&[0x22, 0, 0x40, 0, 0, 0, 0, 0]), refusals::SHORT);
}

#[test]
fn limits_of_the_second_edition() {
    let header = |block_size, slots, endpoints| refusal(&with_header(block_size, slots, 0, endpoints));
    assert_eq!(header(1, 60, 200), 0);
    assert_eq!(header(1, 61, 0), refusals::BLOCKS);
    assert_eq!(header(5, 300, 200), 0);
    assert_eq!(header(5, 305, 0), refusals::BLOCKS);
    assert_eq!(header(5, 320, 0), refusals::BLOCKS);
    assert_eq!(header(8, 320, 0), 0);
    assert_eq!(header(10, 320, 0), 0);
    assert_eq!(header(8, 328, 0), refusals::BLOCKS);
    assert_eq!(header(1, 321, 0), refusals::BLOCKS);
    assert_eq!(header(3, 321, 0), refusals::BLOCKS);
    // The first number of slots beyond the limit that is at most 60 blocks.
    assert_eq!(header(14, 322, 0), refusals::BLOCKS);
    assert_eq!(header(14, 308, 0), 0);
    assert_eq!(header(15, 315, 0), 0);
    assert_eq!(header(15, 330, 0), refusals::BLOCKS);
    assert_eq!(header(15, 320, 0), refusals::BLOCKS);
    assert_eq!(header(8, 256 + 8, 201), refusals::COUNTS);
    assert_eq!(header(0, 4, 0), refusals::BLOCKS);
    assert_eq!(header(1, 0, 0), refusals::BLOCKS);
    // The low eight bits of these would be right.
    assert_eq!(header(8, 1 << 8 | 240, 0), refusals::BLOCKS);
    assert_eq!(header(8, 1 << 11 | 8, 0), refusals::BLOCKS);
    for near_limit in [0, 255, 256, 4095] {
        let read = read(&with_header(8, 320, near_limit, 0));
        assert_eq!(read.map(|picture| u32::from(picture.near_limit)), Ok(near_limit));
    }
}

#[test]
fn the_longest_picture_and_the_longest_evidence() {
    assert_eq!((MAX_PICTURE_BYTES, MAX_EVIDENCE_BYTES), (11_553, 55_209));
    assert_eq!(EDITIONS.map(|edition| edition.header_bytes()), [7, 8]);
    assert_eq!(pack(&longest_second()).len(), 11_553);
    let bytes = pack(&longest_evidence());
    let evidence = evidence_of(&bytes);
    assert_eq!(evidence.len(), 55_209);
    assert_eq!(SECOND.evidence_bytes(300, 60), 55_209);
    assert_eq!(check(&bytes, &evidence), Ok(()));
    for edition in EDITIONS {
        for block_size in 1..=15 {
            let blocks = edition.most_blocks(block_size);
            let length = edition.evidence_bytes(block_size * blocks, blocks);
            assert!(length <= edition.max_evidence_bytes(), "{edition:?}, {block_size}");
        }
    }
}

/// A chain through all slots, without endpoints: at the limits, and beyond them too.
fn chain_lists(edition: Edition, block_size: usize, slots: usize) -> Lists {
    let picture = long_chain(edition, block_size, slots, 1);
    Lists { weights: Vec::new(), protected: Vec::new(), serving: Vec::new(), ..lists_of(&picture) }
}

/// More slots than 240 are of the second edition alone.
#[test]
fn more_than_240_slots_are_of_the_second_edition() {
    for slots in 241..=330 {
        for block_size in (1..=15).filter(|size| slots % size == 0 && slots / size <= 60) {
            let [first, second] = EDITIONS.map(|edition| chain_lists(edition, block_size, slots));
            assert_eq!(written(&first, ROOM), Err(refusals::BLOCKS), "{slots} slots");
            let answer = written(&second, ROOM);
            if slots > 320 {
                assert_eq!(answer, Err(refusals::BLOCKS), "{slots} slots");
                continue;
            }
            let bytes = answer.unwrap_or_else(|number| panic!("{slots} slots get {number}"));
            assert_eq!(
                bytes[..3],
                [0x20 | block_size as u8, (slots >> 4) as u8, (slots << 4) as u8 | 0xF]
            );
            assert_eq!(read(&bytes).map(|picture| lists_of(&picture)), Ok(second));
        }
    }
}

/// Slot 300 alone hangs on the origin and slot 299 on it; it serves endpoint 1 and is the only near
/// one. Four endpoints make the links start at a byte.
fn far_out() -> Picture {
    let mut picture = read(&with_header(5, 300, 0, 4)).expect("the limits are kept");
    picture.slots[299].near = true;
    picture.endpoints[0].weight = 7;
    picture.links = vec![(0, 300), (300, 299)];
    picture.serving = vec![(300, 1)];
    picture
}

/// 300 is 12C hexadecimal; a reader of eight bits would take it for slot 44.
#[test]
fn locations_above_255_are_packed_in_twelve_bits() {
    let bytes = pack(&far_out());
    assert_eq!(bytes[..8], [0x25, 0x12, 0xC0, 0x00, 0x04, 0x00, 0x20, 0x01]);
    assert_eq!(bytes[8 + 121..], [0x00, 0x01, 0x2C, 0x12, 0xC1, 0x2B, 0x12, 0xC0, 0x10]);
    assert_eq!(read(&bytes), Ok(far_out()));
    assert_eq!(weigh(&bytes, 59), Ok((7, 7, 0)));
    assert_eq!(weigh(&bytes, 8), Ok((7, 0, 0)));
    assert_eq!(choice_of(&bytes), (7, Some((59, 7))));
    let evidence = evidence_of(&bytes);
    assert_eq!(evidence.len(), 9 + 900 + 905);
    assert_eq!(evidence[9 + 894..9 + 900], [0x12, 0xC0, 0x02, 0x00, 0x00, 0x01]);
    assert!(evidence[9..9 + 894].iter().all(|byte| *byte == 0));
    assert_eq!(evidence[909..914], [59, 0, 0, 7, 0]);
    assert!(evidence[914..].iter().all(|byte| *byte == 0));
    // Slot 44 is no parent, and nor is a location above n whose low bits are right.
    for parent in [0x02C, 0x22C, 0xF2C, 301] {
        let mut changed = evidence.clone();
        changed[9 + 894] = (parent >> 4) as u8;
        changed[9 + 895] = (parent << 4) as u8;
        assert_eq!(check(&bytes, &changed), Err(refusals::FOREST), "parent {parent}");
    }
    // The ends of links that are not there.
    for (number, links, serving) in [
        (refusals::LINK, vec![(0, 301)], vec![(301, 1)]),
        (refusals::LINK, vec![(4095, 0)], vec![(300, 1)]),
        (refusals::SERVICE_LOCATION, vec![(0, 300)], vec![(301, 0)]),
        (refusals::SERVICE_ENDPOINT, vec![(0, 300)], vec![(300, 5)]),
    ] {
        let wrong = Picture { links, serving, ..far_out() };
        assert_eq!(read(&pack(&wrong)), Err(number));
        assert_eq!(written(&lists_of(&wrong), ROOM), Err(number));
    }
}

/// Slot 320 of a chain has parent 319, 13F hexadecimal, and depth 320, 140.
#[test]
fn depths_above_255_are_told_and_checked() {
    let picture = long_chain(SECOND, 8, 320, 20);
    let bytes = pack(&picture);
    let evidence = evidence_of(&bytes);
    assert_eq!(evidence.len(), 9 + 960 + 40 * 965);
    let last = 9 + 957;
    assert_eq!(evidence[last..last + 3], [0x13, 0xF1, 0x40]);
    assert_eq!(check(&bytes, &evidence), Ok(()));
    for entry in [[0x13, 0xF0, 0x40], [0x13, 0xF1, 0x41], [0x03, 0xF1, 0x40], [0x00, 0x01, 0x40]] {
        let mut changed = evidence.clone();
        changed[last..last + 3].copy_from_slice(&entry);
        assert_eq!(check(&bytes, &changed), Err(refusals::FOREST), "{entry:02X?}");
    }
    let mut random = Random::new(9);
    for growth in GROWTHS {
        assert_eq!(check(&bytes, &foreign::evidence(&mut random, &picture, growth)), Ok(()));
    }
}

/// The second larger sample: blocks of its locations above 255 are candidates, and serve.
#[test]
fn the_second_larger_sample_has_large_locations() {
    let picture = second_larger();
    let bytes = pack(&picture);
    assert_eq!(read(&bytes), Ok(picture.clone()));
    assert_eq!(picture.candidates(), [11, 25, 26, 27, 28]);
    assert_eq!(picture.serving.iter().map(|link| link.0).max(), Some(290));
    assert_eq!(check(&bytes, &evidence_of(&bytes)), Ok(()));
}

#[test]
fn evidence_of_the_other_edition_gets_13() {
    assert_eq!(check(&A_BYTES, &SECOND_EVIDENCE), Err(refusals::FORM));
    assert_eq!(check(&SECOND_BYTES, &A_EVIDENCE), Err(refusals::FORM));
    // The right length and the other edition, and the other way about.
    for number in (0..16).filter(|number| *number != 2) {
        let mut evidence = SECOND_EVIDENCE;
        evidence[0] = number << 4 | 1;
        assert_eq!(check(&SECOND_BYTES, &evidence), Err(refusals::FORM), "edition {number}");
        assert!(show(&SECOND_BYTES, &evidence).is_empty());
    }
    let mut evidence = A_EVIDENCE;
    evidence[0] = 0x21;
    assert_eq!(check(&A_BYTES, &evidence), Err(refusals::FORM));
    assert_eq!(check(&SECOND_BYTES, &evidence), Err(refusals::FORM));
}

#[test]
fn numbers_13_to_16_of_the_second_edition() {
    let changed = |place: usize, value: u8| {
        let mut bytes = SECOND_EVIDENCE;
        bytes[place] = value;
        bytes
    };
    let answer = |evidence: &[u8]| check(&SECOND_BYTES, evidence);
    assert_eq!(answer(&[]), Err(refusals::FORM));
    assert_eq!(answer(&SECOND_EVIDENCE[..54]), Err(refusals::FORM));
    assert_eq!(answer(&[&SECOND_EVIDENCE[..], &[0]].concat()), Err(refusals::FORM));
    assert_eq!(answer(&changed(0, 0x22)), Err(refusals::FORM));
    assert_eq!(answer(&changed(2, 3)), Err(refusals::FORM));
    assert_eq!(answer(&changed(42, 2)), Err(refusals::FORM));
    // Slot 4's first depth 2, slot 3's first parent 2, and slot 1's depth 1 with bits above the byte.
    assert_eq!(answer(&changed(20, 2)), Err(refusals::FOREST));
    assert_eq!(answer(&changed(16, 0x20)), Err(refusals::FOREST));
    assert_eq!(answer(&changed(10, 0x01)), Err(refusals::FOREST));
    assert_eq!(answer(&changed(24, 29)), Err(refusals::WEIGHT));
    assert_eq!(answer(&changed(5, 41)), Err(refusals::WEIGHT));
    assert_eq!(answer(&changed(0, 0x20)), Err(refusals::VERDICT));
    assert_eq!(answer(&changed(1, 0)), Err(refusals::VERDICT));
}

#[test]
fn near_limits_must_fit_the_header() {
    let answer = |edition, near_limit| {
        let lists = Lists { edition, near_limit, ..lists_of(&case_a()) };
        written(&lists, ROOM).map(|bytes| read(&bytes).expect("what is written reads back").near_limit)
    };
    for near_limit in [0, 2, 255] {
        assert_eq!(answer(1, near_limit), Ok(near_limit));
        assert_eq!(answer(2, near_limit), Ok(near_limit));
    }
    for near_limit in [256, 300, 4095] {
        assert_eq!(answer(1, near_limit), Err(refusals::BLOCKS));
        assert_eq!(answer(2, near_limit), Ok(near_limit));
    }
    for near_limit in [4096, 4096 + 2, u16::MAX] {
        assert_eq!(answer(1, near_limit), Err(refusals::BLOCKS));
        assert_eq!(answer(2, near_limit), Err(refusals::BLOCKS));
    }
}

/// Faults from the last to the first: the edition is told before all else.
#[test]
fn the_edition_is_judged_first_and_the_near_limit_with_the_blocks() {
    type Fault = fn(&mut Lists);
    let faults: [(u8, Fault); 7] = [
        (refusals::SERVICE_ENDPOINT, |lists| lists.serving[0][1] = 0),
        (refusals::LINK, |lists| lists.links[0][0] = 4096),
        (refusals::STATE, |lists| lists.states[3] = 3),
        (refusals::COUNTS, |lists| lists.protected.clear()),
        (refusals::BLOCKS, |lists| lists.near_limit = 4096),
        (refusals::EDITION, |lists| lists.edition = 3),
        (refusals::EDITION, |lists| lists.near.clear()),
    ];
    for right in [case_a(), second()] {
        let mut lists = lists_of(&right);
        for (number, fault) in faults {
            fault(&mut lists);
            assert_eq!(written(&lists, ROOM), Err(number));
            assert_eq!(written(&lists, 0), Err(number));
        }
    }
}

#[test]
fn other_editions_are_not_written() {
    for edition in [0, 3, 4, 16 + 1, 16 + 2, 256 + 1, 1 << 16 | 2, 1 << 31 | 1, u32::MAX] {
        let lists = Lists { edition, ..lists_of(&case_a()) };
        assert_eq!(written(&lists, ROOM), Err(refusals::EDITION), "edition {edition}");
    }
}

/// The same network in both editions.
fn both(picture: Picture) -> [Picture; 2] {
    EDITIONS.map(|edition| Picture { edition, near_limit: picture.near_limit % 256, ..picture.clone() })
}

/// Networks that both editions have room for.
fn networks_of_both() -> impl Iterator<Item = [Picture; 2]> {
    let mut random = Random::new(10);
    let large = SHAPES.map(|shape| network(&mut random, shape, Size::longest(FIRST, 6)));
    let examples = all().into_iter().map(|(_, picture)| picture);
    examples.chain(small_networks(11, 600)).chain(tied_networks(12, 300)).chain(large).map(both)
}

/// Parents and depths of a forest, whatever their width.
fn numbers(edition: Edition, forest: &[u8]) -> Vec<u32> {
    let mut fields = BitReader::new(forest);
    let count = forest.len() * 8 / edition.location_width;
    (0..count).map(|_| fields.field(edition.location_width)).collect()
}

/// What evidence states, apart from its edition and its widths.
fn stated(edition: Edition, slots: usize, evidence: &[u8]) -> Vec<(Vec<u8>, Vec<u32>)> {
    let (head, sections) = evidence.split_at(9 + edition.forest_bytes(slots));
    let mut parts = vec![head.split_at(9)];
    parts.extend(sections.chunks(edition.section_bytes(slots)).map(|section| section.split_at(5)));
    let part = |(head, forest): (&[u8], &[u8])| (head.to_vec(), numbers(edition, forest));
    let mut stated: Vec<_> = parts.into_iter().map(part).collect();
    stated[0].0[0] %= 16;
    stated
}

#[test]
fn both_editions_of_a_network_have_the_same_answers() {
    for pictures in networks_of_both() {
        let slots = pictures[0].slots.len();
        let bytes = pictures.each_ref().map(pack);
        assert_eq!(bytes.each_ref().map(|bytes| bytes[0] >> 4), [1, 2]);
        assert_eq!(listing(&bytes[0]), listing(&bytes[1]));
        let evidence = bytes.each_ref().map(|bytes| evidence_of(bytes));
        let [first, second] = [0, 1].map(|place| stated(EDITIONS[place], slots, &evidence[place]));
        assert_eq!(first, second);
        assert_eq!(choice_of(&bytes[0]), choice_of(&bytes[1]));
        assert_eq!(check(&bytes[0], &evidence[1]), Err(refusals::FORM));
        assert_eq!(check(&bytes[1], &evidence[0]), Err(refusals::FORM));
        for block in 0..=pictures[0].block_count() as u32 {
            assert_eq!(weigh(&bytes[0], block), weigh(&bytes[1], block));
            for act in [evict, reload, free] {
                let mut after = bytes.clone();
                let answers = after.each_mut().map(|bytes| act(bytes, block));
                assert_eq!(answers[0], answers[1]);
                let read = after.map(|bytes| read(&bytes).map(both));
                assert_eq!(read[0], read[1]);
            }
        }
    }
}
