//! Generated pictures, held against the words of request C-13: draws by products of 128 bits that are
//! cut to 64, and fields as digits of a binary number.

use crate::edition::{FIRST, MAX_BLOCK_SIZE, MAX_ENDPOINTS, MAX_LINKS};
use crate::picture::{Endpoint, Slot, State};
use crate::random::Random;
use crate::samples::drawn;
use crate::tests::{choice_of, file, ROOM};
use crate::{generate, read, refusals, Asked};

const KNOWN_SEED: u64 = 1_234_567;
const KNOWN_DRAWS: [u64; 5] = [
    6_457_827_717_110_365_317,
    3_203_168_211_198_807_973,
    9_817_491_932_198_370_423,
    4_593_380_528_125_082_431,
    16_408_922_859_458_223_821,
];

const PLAIN: Asked = Asked { block_size: 2, blocks: 4, endpoints: 3, links: 6, serving: 5 };
const LONGEST: Asked = Asked { block_size: 4, blocks: 60, endpoints: 200, links: 2000, serving: 2000 };

type Change = fn(&mut Asked);

fn changed(change: Change) -> Asked {
    let mut asked = PLAIN;
    change(&mut asked);
    asked
}

/// Draw `number` of a seed, counted from 1: the state has then grown so many times.
fn draw_by_words(seed: u64, number: u128) -> u128 {
    const MODULUS: u128 = 1 << 64;
    let state = (u128::from(seed) + number * 0x9E37_79B9_7F4A_7C15) % MODULUS;
    let first = (state ^ (state >> 30)) * 0xBF58_476D_1CE4_E5B9 % MODULUS;
    let second = (first ^ (first >> 27)) * 0x94D0_49BB_1331_11EB % MODULUS;
    second ^ (second >> 31)
}

/// The picture as one row of binary digits, which are then cut into bytes.
fn picture_by_words(seed: u64, asked: &Asked) -> Vec<u8> {
    let Asked { block_size, blocks, endpoints, links, serving } = *asked;
    let slots = block_size * blocks;
    let mut number = 0;
    let mut digits = format!("0001{block_size:04b}{slots:08b}{slots:08b}{endpoints:08b}");
    digits += &format!("{links:012b}{serving:012b}");
    let mut field = |width: usize, modulus: u32, least: u128| {
        number += 1;
        let value = draw_by_words(seed, number) % u128::from(modulus) + least;
        digits += &format!("{value:0width$b}");
    };
    for _ in 0..slots {
        field(2, 3, 0);
        field(1, 2, 0);
    }
    for _ in 0..endpoints {
        field(16, 65_536, 0);
        field(1, 2, 0);
    }
    for _ in 0..links {
        field(8, slots + 1, 0);
        field(8, slots + 1, 0);
    }
    for _ in 0..serving {
        field(8, slots + 1, 0);
        field(8, endpoints, 1);
    }
    bytes_of(&digits)
}

/// Zeros fill up the last byte.
fn bytes_of(digits: &str) -> Vec<u8> {
    let fill = "0".repeat(digits.len().next_multiple_of(8) - digits.len());
    let filled = digits.to_string() + &fill;
    let byte = |place: usize| u8::from_str_radix(&filled[8 * place..8 * place + 8], 2);
    (0..filled.len() / 8).map(|place| byte(place).expect("eight binary digits")).collect()
}

/// What generate answers with a buffer of this length, and the picture that it made.
fn generated(seed: u64, asked: &Asked, room: usize) -> Result<Vec<u8>, u8> {
    // Ones, so that bits which the picture has as zeros are seen to be written.
    let mut buffer = vec![0xFF; room];
    let answer = generate(seed, asked, &mut buffer);
    let kept = answer.unwrap_or(0);
    assert!(buffer[kept..].iter().all(|byte| *byte == 0xFF), "bytes beyond stay");
    buffer.truncate(kept);
    answer.map(|_| buffer)
}

/// Seeds and sizes of chance, each within the limits.
fn any_asked(seed: u64, count: usize) -> impl Iterator<Item = (u64, Asked)> {
    let mut random = Random::new(seed);
    (0..count).map(move |_| {
        let block_size = random.between(1, MAX_BLOCK_SIZE);
        let endpoints = random.between(0, MAX_ENDPOINTS);
        let most_served = if endpoints == 0 { 0 } else { MAX_LINKS };
        let asked = Asked {
            block_size: block_size as u32,
            blocks: random.between(1, FIRST.most_blocks(block_size)) as u32,
            endpoints: endpoints as u32,
            links: random.between(0, MAX_LINKS) as u32,
            serving: random.between(0, most_served) as u32,
        };
        (random.draw(), asked)
    })
}

#[test]
fn the_known_seed_has_the_known_draws() {
    let mut random = Random::new(KNOWN_SEED);
    for (number, known) in (1..).zip(KNOWN_DRAWS) {
        assert_eq!(random.draw(), known, "draw {number}");
        assert_eq!(draw_by_words(KNOWN_SEED, number), u128::from(known), "draw {number}");
    }
}

/// A slot, an endpoint and the first end of a link take the five known draws.
#[test]
fn the_known_draws_make_the_first_fields() {
    let [state, near, weight, protected, from] = KNOWN_DRAWS;
    let asked = Asked { block_size: 1, blocks: 1, endpoints: 1, links: 1, serving: 0 };
    let bytes = generated(KNOWN_SEED, &asked, ROOM).expect("the limits are kept");
    assert_eq!(bytes[..7], [0x11, 1, 1, 1, 0x00, 0x10, 0x00]);
    let picture = read(&bytes).expect("what is generated is accepted");
    assert_eq!((state % 3, near % 2), (0, 1));
    assert_eq!(picture.slots, [Slot { state: State::Held, near: true }]);
    let weight = (weight % 65_536) as u16;
    assert_eq!(picture.endpoints, [Endpoint { weight, protected: protected % 2 == 1 }]);
    assert_eq!(u64::from(picture.links[0].0), from % 2);
}

/// Every field of one small picture, by the number of its draw.
#[test]
fn a_small_picture_takes_its_draws_in_the_order_of_the_layout() {
    let asked = Asked { block_size: 2, blocks: 2, endpoints: 3, links: 4, serving: 5 };
    let picture = read(&generated(42, &asked, ROOM).expect("the limits are kept")).expect("accepted");
    assert_eq!((picture.edition, picture.block_size, picture.near_limit), (FIRST, 2, 4));
    let drawn = |number: usize, modulus: u128| draw_by_words(42, number as u128) % modulus;
    for (row, slot) in picture.slots.iter().enumerate() {
        let number = 2 * row + 1;
        assert_eq!(
            (slot.state as u128, u128::from(slot.near)),
            (drawn(number, 3), drawn(number + 1, 2))
        );
    }
    for (row, endpoint) in picture.endpoints.iter().enumerate() {
        let number = 8 + 2 * row + 1;
        assert_eq!(u128::from(endpoint.weight), drawn(number, 65_536));
        assert_eq!(u128::from(endpoint.protected), drawn(number + 1, 2));
    }
    for (row, &(from, to)) in picture.links.iter().enumerate() {
        let number = 8 + 6 + 2 * row + 1;
        assert_eq!((u128::from(from), u128::from(to)), (drawn(number, 5), drawn(number + 1, 5)));
    }
    for (row, &(location, endpoint)) in picture.serving.iter().enumerate() {
        let number = 8 + 6 + 8 + 2 * row + 1;
        assert_eq!(u128::from(location), drawn(number, 5));
        assert_eq!(u128::from(endpoint), drawn(number + 1, 3) + 1);
    }
    assert_eq!([picture.slots.len(), picture.endpoints.len()], [4, 3]);
    assert_eq!([picture.links.len(), picture.serving.len()], [4, 5]);
}

#[test]
fn generated_bytes_follow_the_words() {
    // The state of the last seed is 0 after the first draw.
    let seeds = [0, 1, u64::MAX, 1 << 63, 1 << 32, 0u64.wrapping_sub(0x9E37_79B9_7F4A_7C15)];
    for asked in [PLAIN, LONGEST] {
        for seed in seeds {
            let due = picture_by_words(seed, &asked);
            assert_eq!(generated(seed, &asked, due.len()), Ok(due), "seed {seed}, {asked:?}");
        }
    }
    for (seed, asked) in any_asked(13, 100) {
        assert_eq!(generated(seed, &asked, ROOM), Ok(picture_by_words(seed, &asked)), "{asked:?}");
    }
}

/// What is asked for is what the reader finds, and the near limit is the number of slots.
#[test]
fn every_generated_picture_is_accepted() {
    for (seed, asked) in any_asked(14, 400) {
        let bytes = generated(seed, &asked, ROOM).unwrap_or_else(|number| panic!("{asked:?}: {number}"));
        let picture = read(&bytes).unwrap_or_else(|number| panic!("seed {seed}, {asked:?}: {number}"));
        let slots = (asked.block_size * asked.blocks) as usize;
        assert_eq!((picture.edition, Asked::of(&picture)), (FIRST, asked));
        assert_eq!((picture.slots.len(), usize::from(picture.near_limit)), (slots, slots));
    }
}

#[test]
fn equal_arguments_give_equal_bytes() {
    for (seed, asked) in any_asked(15, 100) {
        let once = generated(seed, &asked, ROOM);
        assert_eq!(generated(seed, &asked, ROOM), once);
        assert_ne!(generated(seed ^ 1, &asked, ROOM), once, "another seed");
    }
}

/// Each limit with the bytes that the layout gives a picture of these sizes.
#[test]
fn sizes_at_the_limits_are_generated() {
    let examples: [(usize, Change); 10] = [
        (39, |_| {}),
        (36, |asked| (asked.block_size, asked.blocks) = (1, 1)),
        (58, |asked| (asked.block_size, asked.blocks) = (1, 60)),
        (126, |asked| (asked.block_size, asked.blocks) = (4, 60)),
        (126, |asked| (asked.block_size, asked.blocks) = (15, 16)),
        (457, |asked| asked.endpoints = 200),
        (22, |asked| (asked.endpoints, asked.serving) = (0, 0)),
        (4027, |asked| asked.links = 2000),
        (4029, |asked| asked.serving = 2000),
        (8522, |asked| *asked = LONGEST),
    ];
    for (row, (length, change)) in examples.into_iter().enumerate() {
        let bytes = generated(7, &changed(change), ROOM);
        assert_eq!(bytes.as_ref().map(Vec::len), Ok(length), "row {row}");
        assert!(bytes.is_ok_and(|bytes| read(&bytes).is_ok()), "row {row}");
    }
}

/// Sizes beyond each limit, and sizes that would be right if they or their product were cut to fewer
/// bits.
#[test]
fn sizes_beyond_the_limits_are_refused() {
    let examples: [(u8, Change); 27] = [
        (refusals::BLOCKS, |asked| asked.block_size = 0),
        (refusals::BLOCKS, |asked| (asked.block_size, asked.blocks) = (16, 1)),
        (refusals::BLOCKS, |asked| (asked.block_size, asked.blocks) = (16, 15)),
        (refusals::BLOCKS, |asked| asked.block_size = 16 + 2),
        (refusals::BLOCKS, |asked| asked.block_size = u32::MAX),
        (refusals::BLOCKS, |asked| asked.blocks = 0),
        (refusals::BLOCKS, |asked| (asked.block_size, asked.blocks) = (1, 61)),
        (refusals::BLOCKS, |asked| asked.blocks = 256 + 4),
        (refusals::BLOCKS, |asked| asked.blocks = u32::MAX),
        (refusals::BLOCKS, |asked| (asked.block_size, asked.blocks) = (4, 61)),
        (refusals::BLOCKS, |asked| (asked.block_size, asked.blocks) = (11, 22)),
        (refusals::BLOCKS, |asked| (asked.block_size, asked.blocks) = (15, 17)),
        (refusals::BLOCKS, |asked| (asked.block_size, asked.blocks) = (1, 65_536 + 1)),
        (refusals::BLOCKS, |asked| (asked.block_size, asked.blocks) = (65_536, 65_536)),
        (refusals::BLOCKS, |asked| (asked.block_size, asked.blocks) = (8, (1 << 29) + 1)),
        (refusals::BLOCKS, |asked| (asked.block_size, asked.blocks) = ((1 << 29) + 1, 8)),
        (refusals::BLOCKS, |asked| (asked.block_size, asked.blocks) = (u32::MAX, u32::MAX)),
        (refusals::COUNTS, |asked| asked.endpoints = 201),
        (refusals::COUNTS, |asked| asked.endpoints = 256 + 3),
        (refusals::COUNTS, |asked| asked.endpoints = u32::MAX),
        (refusals::COUNTS, |asked| asked.links = 2001),
        (refusals::COUNTS, |asked| asked.links = 4096 + 6),
        (refusals::COUNTS, |asked| asked.links = u32::MAX),
        (refusals::COUNTS, |asked| asked.serving = 2001),
        (refusals::COUNTS, |asked| asked.serving = u32::MAX),
        (refusals::COUNTS, |asked| asked.endpoints = 0),
        (refusals::COUNTS, |asked| (asked.endpoints, asked.serving) = (0, 1)),
    ];
    for (row, (number, change)) in examples.into_iter().enumerate() {
        for room in [0, 39, ROOM] {
            assert_eq!(generated(7, &changed(change), room), Err(number), "row {row}, {room} bytes");
        }
    }
}

#[test]
fn a_buffer_under_the_length_is_refused() {
    for room in 0..39 {
        assert_eq!(generated(7, &PLAIN, room), Err(refusals::BUFFER), "{room} bytes");
    }
    for room in [0, 7, 8521] {
        assert_eq!(generated(7, &LONGEST, room), Err(refusals::BUFFER), "{room} bytes");
    }
    let bytes = picture_by_words(7, &PLAIN);
    for room in [39, 40, ROOM] {
        assert_eq!(generated(7, &PLAIN, room).as_ref(), Ok(&bytes), "{room} bytes");
    }
}

/// Faults from the last to the first: the number of the first is told, whatever comes behind it.
#[test]
fn sizes_are_judged_in_the_order_of_the_header() {
    let faults: [(u8, Change); 4] = [
        (refusals::BUFFER, |_| {}),
        (refusals::COUNTS, |asked| asked.endpoints = 0),
        (refusals::COUNTS, |asked| asked.links = u32::MAX),
        (refusals::BLOCKS, |asked| asked.blocks = 61),
    ];
    let mut asked = PLAIN;
    for (number, fault) in faults {
        fault(&mut asked);
        assert_eq!(generated(7, &asked, 0), Err(number), "{asked:?}");
    }
}

/// What the C example `load` is held to: how many of a thousand networks have a block that can go, and
/// what they serve and would lose together.
#[test]
fn the_lines_of_load_are_a_thousand_choices() {
    let choices: Vec<_> = (1..=1000).map(|seed| choice_of(&drawn(seed))).collect();
    let served: u64 = choices.iter().map(|(served, _)| u64::from(*served)).sum();
    let losses: Vec<u64> =
        choices.iter().filter_map(|(_, chosen)| chosen.map(|(_, loss)| loss.into())).collect();
    let lost: u64 = losses.iter().sum();
    let lines = format!(
        "1000 networks, a block can go in {}\nserved {served} lost {lost}\nstatus 0\n",
        losses.len()
    );
    assert_eq!(file("examples/load.lines"), lines.into_bytes());
}
