//! The field examples of document 01, A to K and M, a tie, wide blocks, larger networks, a drawn one and
//! the longest pictures, in both editions; and some that are refused.

use crate::edition::{FIRST, MAX_PICTURE_BYTES, SECOND};
use crate::generate::{generate, Asked};
use crate::networks::{dense_held, Size};
use crate::picture::{pack, Endpoint, Picture, Slot, State};
use crate::random::Random;

/// Case A as document 01 prints it.
pub const A_BYTES: [u8; 27] = [
    0x12, 0x04, 0x02, 0x02, 0x00, 0x40, 0x03, 0x24, 0x90, 0x01, 0xE8, 0x00, 0x60, 0x00, 0x04, 0x00,
    0x08, 0x04, 0x0C, 0x00, 0x10, 0x04, 0x04, 0x08, 0x04, 0x10, 0x08,
];

/// The evidence of case A as document 01 prints it.
pub const A_EVIDENCE: [u8; 43] = [
    0x11, 0x01, 0x02, 0x00, 0x00, 0x2A, 0x00, 0x00, 0x0C, 0x00, 0x01, 0x00, 0x01, 0x01, 0x02, 0x00,
    0x01, 0x00, 0x00, 0x00, 0x1E, 0x01, 0x00, 0x00, 0x00, 0x00, 0x00, 0x00, 0x00, 0x01, 0x01, 0x00,
    0x00, 0x0C, 0x00, 0x00, 0x01, 0x00, 0x01, 0x00, 0x00, 0x00, 0x00,
];

/// Case A in the second edition, worked out by hand from its layout and document 01's case.
pub const SECOND_BYTES: [u8; 34] = [
    0x22, 0x00, 0x40, 0x02, 0x02, 0x00, 0x40, 0x03, 0x24, 0x90, 0x01, 0xE8, 0x00, 0x60, 0x00, 0x00,
    0x04, 0x00, 0x00, 0x08, 0x00, 0x40, 0x0C, 0x00, 0x00, 0x10, 0x00, 0x40, 0x40, 0x08, 0x04, 0x01,
    0x00, 0x80,
];

/// The evidence of case A in the second edition, worked out by hand too.
pub const SECOND_EVIDENCE: [u8; 55] = [
    0x21, 0x01, 0x02, 0x00, 0x00, 0x2A, 0x00, 0x00, 0x0C, 0x00, 0x00, 0x01, 0x00, 0x00, 0x01, 0x00,
    0x10, 0x02, 0x00, 0x00, 0x01, 0x00, 0x00, 0x00, 0x1E, 0x01, 0x00, 0x00, 0x00, 0x00, 0x00, 0x00,
    0x00, 0x00, 0x00, 0x00, 0x00, 0x01, 0x01, 0x00, 0x00, 0x0C, 0x00, 0x00, 0x00, 0x01, 0x00, 0x00,
    0x01, 0x00, 0x00, 0x00, 0x00, 0x00, 0x00,
];

/// Case A by its description.
pub fn case_a() -> Picture {
    Picture {
        edition: FIRST,
        block_size: 2,
        near_limit: 2,
        slots: vec![Slot { state: State::Held, near: true }; 4],
        endpoints: vec![
            Endpoint { weight: 30, protected: true },
            Endpoint { weight: 12, protected: false },
        ],
        links: vec![(0, 1), (0, 2), (1, 3), (0, 4)],
        serving: vec![(1, 1), (2, 1), (4, 2)],
    }
}

/// The same network in the second edition.
pub fn in_second(picture: Picture) -> Picture {
    Picture { edition: SECOND, ..picture }
}

/// Case A in the second edition.
pub fn second() -> Picture {
    in_second(case_a())
}

/// Case A with a link from the origin to slot 3, so that every link starts there.
pub fn flat_a() -> Picture {
    variant(|picture| picture.links[2] = (0, 3))
}

fn variant(change: impl FnOnce(&mut Picture)) -> Picture {
    let mut picture = case_a();
    change(&mut picture);
    picture
}

/// Each example with its letter.
pub fn all() -> Vec<(char, Picture)> {
    vec![
        ('A', case_a()),
        ('B', variant(|p| p.endpoints[0].protected = false)),
        ('C', variant(|p| p.endpoints[1].protected = true)),
        (
            'D',
            variant(|p| {
                p.endpoints[0].protected = false;
                p.endpoints[1].weight = 30;
            }),
        ),
        ('E', variant(|p| p.slots.iter_mut().for_each(|slot| slot.near = false))),
        (
            'F',
            variant(|p| {
                p.links.retain(|link| *link != (0, 4));
                p.endpoints[1].protected = true;
            }),
        ),
        ('G', variant(|p| p.slots.iter_mut().for_each(|slot| slot.state = State::Recoverable))),
        ('H', variant(|p| p.links.push((0, 4)))),
        ('I', variant(|p| p.links[0] = (3, 1))),
        ('J', variant(|p| p.endpoints[0].weight = 0)),
        (
            'K',
            variant(|p| {
                p.slots[2].state = State::Recoverable;
                p.slots[3].state = State::Recoverable;
            }),
        ),
        (
            'M',
            variant(|p| {
                p.endpoints.clear();
                p.serving.clear();
            }),
        ),
    ]
}

/// One example by its letter, which must be one of theirs.
pub fn case(letter: char) -> Picture {
    let found = all().into_iter().find(|(name, _)| *name == letter);
    found.expect("a letter of document 01's examples").1
}

/// D with a third endpoint, of weight 0, which slot 2 serves: both blocks lose 30, block 0 cuts two
/// endpoints and block 1 one.
pub fn tie() -> Picture {
    let mut picture = case('D');
    picture.endpoints.push(Endpoint { weight: 0, protected: false });
    picture.serving.push((2, 3));
    picture
}

/// Two blocks of fifteen slots. The first and the last slot of each block serve one endpoint: two
/// feeders, and both go with the block.
pub fn wide() -> Picture {
    Picture {
        edition: FIRST,
        block_size: 15,
        near_limit: 30,
        slots: vec![Slot { state: State::Held, near: true }; 30],
        endpoints: case_a().endpoints,
        links: vec![(0, 1), (0, 15), (0, 16), (16, 30)],
        serving: vec![(1, 1), (15, 1), (16, 2), (30, 2)],
    }
}

/// A larger network: 12 blocks of 4 slots and 18 endpoints. Slots 1 to 24 are three lines of eight
/// from the origin, which a ring joins in their middles. Slots 25 to 48 hang on one slot of the
/// lines each, every fourth one on a second; one of them serves each endpoint, and a second one every
/// other endpoint. The first eight blocks are near.
pub fn larger() -> Picture {
    let slots = (1..=48).map(|slot| {
        let state = match slot {
            24 => State::Freed,
            47 | 48 => State::Recoverable,
            _ => State::Held,
        };
        Slot { state, near: slot <= 32 }
    });
    let endpoints = (1..=18u16)
        .map(|endpoint| Endpoint { weight: endpoint * 370 % 1000 + 5, protected: endpoint % 6 == 1 });
    let ring = [(4, 12), (12, 20), (20, 4)];
    let hanging = (1..=24).map(|slot| (slot, 24 + slot));
    let second = (1..=6).map(|fourth| ((4 * fourth + 10) % 24 + 1, 24 + 4 * fourth));
    let serving = (1..=18).map(|endpoint| (24 + u16::from(endpoint), endpoint));
    let other = (0..=8).map(|half| (44 - u16::from(half), 2 * half + 1));
    Picture {
        edition: FIRST,
        block_size: 4,
        near_limit: 30,
        slots: slots.collect(),
        endpoints: endpoints.collect(),
        links: lines(3, 8).chain(ring).chain(hanging).chain(second).collect(),
        serving: serving.chain(other).collect(),
    }
}

/// Lines of so many slots each, which start at the origin.
fn lines(count: u16, length: u16) -> impl Iterator<Item = (u16, u16)> {
    (1..=count * length).map(move |slot| (if slot % length == 1 { 0 } else { slot - 1 }, slot))
}

/// A network of the second edition with locations that take more than a byte: 29 blocks of 10 slots
/// and 40 endpoints. Slots 1 to 145 are five lines of 29 from the origin, the last slot of each linked
/// to the middle of the next. Slots 146 to 290 hang on one slot of the lines each, those from 251 to
/// 285 on the fifth slot further on too. The last forty serve one endpoint each, and every other
/// endpoint has a second feeder. A block of the lines and the last four blocks are near.
pub fn second_larger() -> Picture {
    let slots = (1..=290).map(|slot| {
        let state = match slot {
            29 => State::Freed,
            150..=159 => State::Recoverable,
            _ => State::Held,
        };
        Slot { state, near: (111..=120).contains(&slot) || slot > 250 }
    });
    let endpoints = (1..=40u16)
        .map(|endpoint| Endpoint { weight: endpoint * 370 % 1000 + 5, protected: endpoint % 13 == 1 });
    let ring = (1..=5).map(|line| (29 * line, 29 * line % 145 + 15));
    let hanging = (1..=145).map(|slot| (slot, 145 + slot));
    let second = (251..=285).map(|slot| (slot + 5, slot));
    let serving = (1..=40).map(|endpoint| (291 - u16::from(endpoint), endpoint));
    let other = (1..=20).map(|half| (145 + 7 * u16::from(half), 2 * half));
    Picture {
        edition: SECOND,
        block_size: 10,
        near_limit: 300,
        slots: slots.collect(),
        endpoints: endpoints.collect(),
        links: lines(5, 29).chain(ring).chain(hanging).chain(second).collect(),
        serving: serving.chain(other).collect(),
    }
}

/// The longest picture of the first edition: every count at its limit.
pub fn longest() -> Picture {
    dense_held(&mut Random::new(1), Size::longest(FIRST, 4))
}

/// The longest picture of the second edition, the longest that there is: all counts but the number of
/// blocks at their limits.
pub fn longest_second() -> Picture {
    dense_held(&mut Random::new(1), Size::longest(SECOND, 8))
}

/// The picture of the longest evidence that there is: 60 blocks, each a candidate, of 5 slots.
pub fn longest_evidence() -> Picture {
    dense_held(&mut Random::new(1), Size::longest(SECOND, 5))
}

/// The longest pictures of both editions.
pub fn long() -> [Picture; 2] {
    [longest(), longest_second()]
}

/// The samples that are small enough to try every bit of: the examples, the tie, the wide blocks and
/// the larger network; and of the second edition A, the tie and the wide blocks.
pub fn small() -> Vec<Picture> {
    let examples = all().into_iter().map(|(_, picture)| picture);
    let in_second = [second(), in_second(tie()), in_second(wide())];
    examples.chain([tie(), wide(), larger()]).chain(in_second).collect()
}

/// Six blocks of four slots, 12 endpoints, 40 links and 24 serving links, drawn from a seed.
pub fn drawn(seed: u64) -> Vec<u8> {
    let asked = Asked { block_size: 4, blocks: 6, endpoints: 12, links: 40, serving: 24 };
    let mut buffer = vec![0; MAX_PICTURE_BYTES];
    let length = generate(seed, &asked, &mut buffer).expect("sizes that a picture has");
    buffer.truncate(length);
    buffer
}

/// The pictures of `examples/` by their file names: the examples, the tie, the wide blocks, the larger
/// network, the longest picture, one that is drawn, those of the second edition, and what is refused: A
/// with a serving link that names what is not there, and with a byte too many.
pub fn files() -> Vec<(String, Vec<u8>)> {
    let examples =
        all().into_iter().map(|(letter, picture)| (letter.to_lowercase().to_string(), pack(&picture)));
    let others = [
        ("tie".to_string(), pack(&tie())),
        ("wide".to_string(), pack(&wide())),
        ("larger".to_string(), pack(&larger())),
        ("longest".to_string(), pack(&longest())),
        ("drawn".to_string(), drawn(1)),
        ("second".to_string(), pack(&second())),
        ("second-larger".to_string(), pack(&second_larger())),
        ("longest-second".to_string(), pack(&longest_second())),
        ("longest-evidence".to_string(), pack(&longest_evidence())),
        ("no-location".to_string(), pack(&variant(|p| p.serving[0].0 = 5))),
        ("no-endpoint".to_string(), pack(&variant(|p| p.serving[2].1 = 3))),
        ("spare-byte".to_string(), [&A_BYTES[..], &[0]].concat()),
    ];
    examples.chain(others).collect()
}
