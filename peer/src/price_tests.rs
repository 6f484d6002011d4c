//! Pricing blocks of flat networks by traffic records: counters worked out by hand, the order of the
//! refusals, the ends of every limit, and random networks by two other ways.

use crate::edition::{MAX_BLOCKS, MAX_ENDPOINTS, MAX_LINKS, SECOND};
use crate::networks::{flat, Size};
use crate::picture::State;
use crate::price::{any_records, broken_price, pack_records, price_by_feeders, Counters, Record};
use crate::price::{MAX_RECORDS, RECORD_BYTES};
use crate::random::Random;
use crate::samples::{case_a, flat_a, in_second, A_BYTES};
use crate::tie_tests::{drawn, Drawn};
use crate::{pack, price, price_into, refusals, weigh, Picture};

/// Blocks of two slots, all of them held and linked from the origin: block 0 has slots 1 and 2, block 1
/// has slots 3 and 4. The weights of the endpoints are not those of the records.
fn pairs(blocks: usize, endpoints: &[&[u16]]) -> Picture {
    let endpoints: Vec<Drawn> = endpoints.iter().map(|locations| (7, *locations)).collect();
    Picture { block_size: 2, ..drawn(2 * blocks, &endpoints) }
}

fn packed(records: &[(u8, u16)]) -> Vec<u8> {
    let record = |&(endpoint, weight): &(u8, u16)| Record { endpoint, weight };
    pack_records(&records.iter().map(record).collect::<Vec<Record>>())
}

/// The counters of the picture's blocks. Both editions and the feeders must give them too, and those past
/// the last block must be 0.
fn priced(picture: &Picture, records: &[(u8, u16)]) -> Vec<u32> {
    let records = packed(records);
    let (bytes, second) = (pack(picture), pack(&in_second(picture.clone())));
    let counters = price(&bytes, &records).expect("a flat network");
    assert_eq!(price(&second, &records), Ok(counters));
    assert_eq!(price_by_feeders(&bytes, &records), Ok(counters));
    let (blocks, beyond) = counters.split_at(picture.block_count());
    assert!(beyond.iter().all(|counter| *counter == 0));
    blocks.to_vec()
}

fn refused(picture: &Picture, records: &[(u8, u16)]) -> u8 {
    price(&pack(picture), &packed(records)).expect_err("a fault")
}

#[test]
fn a_record_is_three_bytes_with_the_high_byte_first() {
    let picture = pack(&pairs(1, &[&[1], &[2]]));
    let records = [2, 0x12, 0x34, 1, 0x00, 0xFF];
    assert_eq!(records, *packed(&[(2, 0x1234), (1, 0xFF)]));
    let mut due = [0; MAX_BLOCKS];
    due[0] = 0x1234 + 0xFF;
    assert_eq!(price(&picture, &records), Ok(due));
}

#[test]
fn case_a_with_a_flat_link_is_priced_and_as_it_is_refused() {
    assert_eq!(priced(&flat_a(), &[(1, 500), (2, 40), (1, 6)]), [506, 40]);
    assert_eq!(price(&A_BYTES, &[]), Err(refusals::LINK_START));
}

#[test]
fn two_feeders_in_one_block_are_one_and_two_blocks_feed_neither_alone() {
    let picture = pairs(3, &[&[1, 2], &[2, 3], &[5], &[1, 3, 5]]);
    assert_eq!(priced(&picture, &[(1, 100), (2, 200), (3, 400), (4, 800)]), [100, 0, 400]);
}

#[test]
fn what_the_origin_serves_adds_nothing() {
    let picture = pairs(2, &[&[0], &[0, 1], &[1, 0], &[1], &[3, 4, 0]]);
    assert_eq!(priced(&picture, &[(1, 1), (2, 2), (3, 4), (4, 8), (5, 16)]), [8, 0]);
}

#[test]
fn a_slot_feeds_where_it_is_held_and_linked_from_the_origin() {
    // Block 1 feeds endpoint 1 by slot 3 alone, and endpoints 2 and 3 beside block 0.
    let right = pairs(2, &[&[3], &[1, 3], &[2, 3, 4]]);
    let records = [(1, 100), (2, 200), (3, 400)];
    assert_eq!(priced(&right, &records), [0, 100]);
    for state in [State::Recoverable, State::Freed] {
        let mut picture = right.clone();
        picture.slots[2].state = state;
        assert_eq!(priced(&picture, &records), [200, 0], "{state:?}");
        picture.slots[3].state = state;
        assert_eq!(priced(&picture, &records), [600, 0], "{state:?}");
    }
    let mut picture = right.clone();
    picture.links.retain(|link| *link != (0, 3));
    assert_eq!(priced(&picture, &records), [200, 0]);
    picture.links.retain(|link| *link != (0, 4));
    assert_eq!(priced(&picture, &records), [600, 0]);
    picture.links.clear();
    assert_eq!(priced(&picture, &records), [0, 0]);
}

#[test]
fn a_slot_of_the_block_that_is_not_reached_changes_nothing() {
    let mut picture = pairs(1, &[&[1, 2]]);
    picture.slots[0].state = State::Freed;
    assert_eq!(priced(&picture, &[(1, 9)]), [9]);
    picture.links.retain(|link| *link != (0, 2));
    assert_eq!(priced(&picture, &[(1, 9)]), [0]);
}

#[test]
fn repeats_count_once() {
    let mut picture = pairs(2, &[&[1, 1, 2, 1], &[3, 3], &[4, 1, 4]]);
    let records = [(1, 10), (2, 20), (3, 40)];
    assert_eq!(priced(&picture, &records), [10, 20]);
    picture.links.extend([(0, 1), (0, 3), (0, 3), (0, 1)]);
    assert_eq!(priced(&picture, &records), [10, 20]);
}

#[test]
fn a_link_from_the_origin_to_itself_is_fine() {
    let mut picture = pairs(2, &[&[1], &[4]]);
    picture.links.splice(1..1, [(0, 0), (0, 0)]);
    assert_eq!(priced(&picture, &[(1, 3), (2, 5)]), [3, 5]);
    picture.links = vec![(0, 0)];
    assert_eq!(priced(&picture, &[(1, 3), (2, 5)]), [0, 0]);
}

#[test]
fn a_block_that_is_no_candidate_has_its_counter() {
    let mut picture = pairs(2, &[&[1], &[3]]);
    picture.slots[2].near = false;
    picture.slots[3].near = false;
    assert_eq!(picture.candidates(), [0]);
    assert_eq!(priced(&picture, &[(1, 3), (2, 5)]), [3, 5]);
    picture.slots.iter_mut().for_each(|slot| slot.near = false);
    assert_eq!(priced(&picture, &[(1, 3), (2, 5)]), [3, 5]);
}

#[test]
fn weight_and_protection_in_the_picture_count_for_nothing() {
    let mut picture = pairs(2, &[&[1], &[3]]);
    for (weight, protected) in [(0, false), (0, true), (65_535, true)] {
        picture.endpoints[0].weight = weight;
        picture.endpoints[0].protected = protected;
        assert_eq!(priced(&picture, &[(1, 3), (2, 5)]), [3, 5]);
    }
}

#[test]
fn records_of_one_endpoint_add_up() {
    let picture = pairs(2, &[&[1], &[3], &[2]]);
    assert_eq!(priced(&picture, &[]), [0, 0]);
    assert_eq!(priced(&picture, &[(1, 0)]), [0, 0]);
    assert_eq!(priced(&picture, &[(1, 0), (2, 0), (2, 6)]), [0, 6]);
    assert_eq!(priced(&picture, &[(1, 10), (2, 1), (1, 10), (3, 300), (1, 65_535)]), [65_855, 1]);
}

#[test]
fn without_endpoints_there_are_no_records() {
    let picture = pairs(2, &[]);
    assert_eq!(priced(&picture, &[]), [0, 0]);
    for endpoint in [0, 1, 255] {
        assert_eq!(refused(&picture, &[(endpoint, 5)]), refusals::RECORD_ENDPOINT);
    }
    assert_eq!(price(&pack(&picture), &[1]), Err(refusals::RECORDS));
}

#[test]
fn each_of_sixty_blocks_has_its_counter() {
    // Slot k serves endpoint k.
    let slots: Vec<[u16; 1]> = (1..=MAX_BLOCKS as u16).map(|slot| [slot]).collect();
    let endpoints: Vec<Drawn> = slots.iter().map(|slot| (7, &slot[..])).collect();
    let records: Vec<(u8, u16)> =
        (1..=60).map(|endpoint| (endpoint, 1000 + u16::from(endpoint))).collect();
    assert_eq!(priced(&drawn(MAX_BLOCKS, &endpoints), &records), (1001..=1060).collect::<Vec<u32>>());
}

#[test]
fn locations_of_more_than_a_byte_feed() {
    // Blocks of eight: slot 257 is the first of block 32, slot 320 the last of block 39, and slots 1 and
    // 64, which have the same low bytes, are of blocks 0 and 7.
    let picture = Picture {
        edition: SECOND,
        block_size: 8,
        ..drawn(320, &[(7, &[257]), (7, &[320, 313]), (7, &[1, 257]), (7, &[64])])
    };
    let records = packed(&[(1, 1), (2, 2), (3, 4), (4, 8)]);
    let mut due: Counters = [0; MAX_BLOCKS];
    for (block, counter) in [(32, 1), (39, 2), (7, 8)] {
        due[block] = counter;
    }
    assert_eq!(price(&pack(&picture), &records), Ok(due));
    assert_eq!(price_by_feeders(&pack(&picture), &records), Ok(due));
}

#[test]
fn a_link_that_starts_elsewhere_is_refused_wherever_it_leads() {
    let right = pairs(2, &[&[1], &[3]]);
    for link in [(1, 2), (1, 3), (3, 3), (4, 0), (1, 1), (1, 0)] {
        for place in 0..=right.links.len() {
            let mut picture = right.clone();
            picture.links.insert(place, link);
            for state in [State::Held, State::Recoverable, State::Freed] {
                picture.slots.iter_mut().for_each(|slot| slot.state = state);
                assert_eq!(refused(&picture, &[(1, 5)]), refusals::LINK_START, "{link:?} at {place}");
                assert_eq!(refused(&in_second(picture.clone()), &[]), refusals::LINK_START);
            }
        }
    }
    // Slot 256 has a low byte of 0.
    let far = Picture { edition: SECOND, block_size: 8, ..drawn(320, &[]) };
    let linked = |link| Picture { links: vec![link; MAX_LINKS], ..far.clone() };
    assert_eq!(refused(&linked((256, 1)), &[]), refusals::LINK_START);
    assert_eq!(price(&pack(&linked((0, 256))), &[]), Ok([0; MAX_BLOCKS]));
}

/// The last of many links.
#[test]
fn every_link_is_looked_at() {
    let mut picture = pairs(2, &[&[1]]);
    picture.links.resize(MAX_LINKS, (0, 1));
    assert_eq!(priced(&picture, &[(1, 5)]), [5, 0]);
    picture.links[MAX_LINKS - 1] = (1, 1);
    assert_eq!(refused(&picture, &[(1, 5)]), refusals::LINK_START);
}

#[test]
fn records_are_whole_and_not_too_many() {
    let picture = pack(&pairs(1, &[&[1]]));
    let answer = |length: usize| {
        let mut records = packed(&[(1, 1)]).repeat(length.div_ceil(RECORD_BYTES));
        records.truncate(length);
        price(&picture, &records).map(|counters| counters[0])
    };
    for length in [1, 2, 4, 5, 3 * 59_999 + 1, 3 * 59_999 + 2] {
        assert_eq!(answer(length), Err(refusals::RECORDS), "{length} bytes");
    }
    for count in [0, 1, 2, 21_845, 21_846, 59_999, 60_000] {
        assert_eq!(answer(3 * count), Ok(count as u32), "{count} records");
    }
    for length in [180_001, 180_002, 180_003, 180_006, 3 * 65_536, 3 * 65_537, 3 * 120_000] {
        assert_eq!(answer(length), Err(refusals::RECORDS), "{length} bytes");
    }
}

#[test]
fn endpoints_of_records_are_there() {
    let right = pairs(1, &[&[1], &[2], &[1]]);
    assert_eq!(priced(&right, &[(1, 1), (2, 1), (3, 1)]), [3]);
    for endpoint in [0, 4, 5, 128, 255] {
        for records in [vec![(endpoint, 0)], vec![(3, 1), (endpoint, 1)], vec![(endpoint, 1), (3, 1)]] {
            assert_eq!(refused(&right, &records), refusals::RECORD_ENDPOINT, "{records:?}");
            assert_eq!(refused(&in_second(right.clone()), &records), refusals::RECORD_ENDPOINT);
        }
    }
    let most = pairs(1, &[[1].as_slice(); MAX_ENDPOINTS]);
    assert_eq!(priced(&most, &[(200, 1)]), [1]);
    assert_eq!(refused(&most, &[(201, 1)]), refusals::RECORD_ENDPOINT);
    // The last of as many as there may be.
    let mut records = vec![(3, 1); MAX_RECORDS];
    records[MAX_RECORDS - 1].0 = 4;
    assert_eq!(refused(&right, &records), refusals::RECORD_ENDPOINT);
}

#[test]
fn the_largest_weights_have_room_in_one_counter() {
    let picture = pairs(2, &[&[3], &[4, 3]]);
    let records = vec![(1, 65_535); MAX_RECORDS];
    assert_eq!(priced(&picture, &records), [0, 3_932_100_000]);
    // The same from two endpoints of one block.
    let half = [vec![(1, 65_535); MAX_RECORDS / 2], vec![(2, 65_535); MAX_RECORDS / 2]].concat();
    assert_eq!(priced(&picture, &half), [0, 3_932_100_000]);
}

/// Old counters of chance.
fn lent(room: usize) -> Vec<u32> {
    let mut random = Random::new(room as u64);
    (0..room).map(|_| random.draw() as u32).collect()
}

#[test]
fn sixty_counters_are_written_and_no_more() {
    let picture = pack(&pairs(2, &[&[1], &[3]]));
    let records = packed(&[(2, 5), (1, 3), (2, 6)]);
    for room in [60, 61, 100] {
        let (old, mut buffer) = (lent(room), lent(room));
        assert_eq!(price_into(&picture, &records, &mut buffer), Ok(()), "{room} counters");
        assert_eq!(buffer[..2], [3, 11]);
        assert_eq!(buffer[2..MAX_BLOCKS], [0; MAX_BLOCKS - 2]);
        assert_eq!(buffer[MAX_BLOCKS..], old[MAX_BLOCKS..]);
    }
    for room in [0, 1, 2, 59] {
        let mut buffer = lent(room);
        assert_eq!(
            price_into(&picture, &records, &mut buffer),
            Err(refusals::BUFFER),
            "{room} counters"
        );
        assert_eq!(buffer, lent(room));
    }
}

/// What is wrong of picture, links, records' length, their endpoints and the buffer: the first is told,
/// and the buffer stays.
#[test]
fn faults_are_told_in_their_order() {
    let numbers = [
        refusals::FILL,
        refusals::LINK_START,
        refusals::RECORDS,
        refusals::RECORD_ENDPOINT,
        refusals::BUFFER,
    ];
    for faults in 1..1 << numbers.len() {
        let is_wrong = |place: usize| faults >> place & 1 == 1;
        let mut picture = pairs(2, &[&[1], &[3]]);
        if is_wrong(1) {
            picture.links[2].0 = 4;
        }
        let mut bytes = pack(&picture);
        bytes.extend(is_wrong(0).then_some(0));
        let endpoint = if is_wrong(3) { 3 } else { 2 };
        let count = [2, 20_000, MAX_RECORDS][faults % 3];
        let right = packed(&vec![(endpoint, 1); count]);
        let mut lists = vec![right.clone()];
        if is_wrong(2) {
            let too_many = packed(&vec![(endpoint, 1); MAX_RECORDS + 1]);
            lists = vec![[&right[..], &[0]].concat(), right[1..].to_vec(), too_many];
        }
        let due = numbers[faults.trailing_zeros() as usize];
        let room = if is_wrong(4) { 59 } else { 60 };
        for records in lists {
            let mut buffer = lent(room);
            assert_eq!(price_into(&bytes, &records, &mut buffer), Err(due), "faults {faults:05b}");
            assert_eq!(buffer, lent(room));
        }
    }
}

/// The reader's numbers come first, each one, whatever else is wrong.
#[test]
fn a_refused_picture_has_its_own_number() {
    let mut right = case_a();
    right.links.push((3, 1));
    let changed = |place: usize, value: u8| {
        let mut bytes = pack(&right);
        bytes[place] = value;
        bytes
    };
    let with = |change: fn(&mut Picture)| {
        let mut picture = right.clone();
        change(&mut picture);
        pack(&picture)
    };
    for (number, picture) in [
        (refusals::SHORT, Vec::new()),
        (refusals::SHORT, pack(&right)[..27].to_vec()),
        (refusals::EDITION, changed(0, 0x32)),
        (refusals::BLOCKS, changed(0, 0x13)),
        (refusals::COUNTS, changed(3, 201)),
        (refusals::STATE, changed(7, 0xE4)),
        (refusals::LINK, with(|picture| picture.links[4].1 = 5)),
        (refusals::SERVICE_LOCATION, with(|picture| picture.serving[2].0 = 5)),
        (refusals::SERVICE_ENDPOINT, with(|picture| picture.serving[2].1 = 3)),
        (refusals::FILL, [&pack(&right)[..], &[0]].concat()),
    ] {
        for records in [vec![], vec![1], packed(&[(0, 1)]), packed(&[(1, 1)])] {
            assert_eq!(price(&picture, &records), Err(number));
            assert_eq!(price_into(&picture, &records, &mut [7; 59]), Err(number));
        }
    }
}

/// Flat networks, small ones and of any size, with records.
fn traffic(seed: u64, count: usize) -> impl Iterator<Item = (Picture, Vec<Record>)> {
    let mut random = Random::new(seed);
    (0..count).map(move |round| {
        let size = match round % 8 {
            0 => Size::any(&mut random),
            4 => Size::middle(&mut random),
            _ => Size::small(&mut random),
        };
        let picture = flat(&mut random, size);
        let records = random.between(0, 40);
        let records = any_records(&mut random, picture.endpoints.len(), records);
        (picture, records)
    })
}

#[test]
fn walking_and_counting_feeders_agree_on_random_networks() {
    let (mut some, mut kept_out) = (0, 0);
    for (picture, records) in traffic(31, 2000) {
        let (bytes, records) = (pack(&picture), pack_records(&records));
        let counters = price(&bytes, &records).expect("a flat network");
        assert_eq!(price_by_feeders(&bytes, &records), Ok(counters), "{picture:?}");
        assert_eq!(broken_price(&bytes, &records, &counters), None, "{picture:?}");
        some += usize::from(counters.iter().any(|counter| *counter > 0));
        kept_out += usize::from(weight_of(&records) > counters.iter().sum());
    }
    assert!(some > 400 && kept_out > 400, "{some} and {kept_out} of 2000");
}

fn weight_of(records: &[u8]) -> u32 {
    let weights = records.chunks(RECORD_BYTES).map(|record| [record[1], record[2]]);
    weights.map(|bytes| u32::from(u16::from_be_bytes(bytes))).sum()
}

/// Where the picture has the sums of the records as weights, the counters are what weighing loses.
#[test]
fn counters_are_losses_by_the_sums_of_records() {
    let mut some = 0;
    for (mut picture, records) in traffic(32, 2000) {
        picture.endpoints.iter_mut().for_each(|endpoint| endpoint.weight = 0);
        let fits = records.iter().all(|record| {
            let weight = &mut picture.endpoints[usize::from(record.endpoint) - 1].weight;
            *weight = weight.saturating_add(record.weight);
            *weight < u16::MAX
        });
        if !fits {
            continue;
        }
        let bytes = pack(&picture);
        let counters = price(&bytes, &pack_records(&records)).expect("a flat network");
        for (block, counter) in (0..picture.block_count() as u32).zip(counters) {
            let (_, loss, _) = weigh(&bytes, block).expect("a block");
            assert_eq!(counter, loss, "block {block} of {picture:?}");
        }
        some += usize::from(counters.iter().any(|counter| *counter > 0));
    }
    assert!(some > 200, "{some}");
}

/// What `broken_price` is for: it finds counters that two wrong implementations could share.
#[test]
fn wrong_counters_break_the_promise() {
    let picture = pack(&pairs(2, &[&[1], &[3]]));
    let records = packed(&[(1, 3), (2, 5)]);
    let counters = price(&picture, &records).expect("a flat network");
    assert_eq!(broken_price(&picture, &records, &counters), None);
    for (place, value) in [(0, 2), (1, 6), (59, 1)] {
        let mut wrong = counters;
        wrong[place] = value;
        assert!(broken_price(&picture, &records, &wrong).is_some());
    }
    let mut swapped = counters;
    swapped.swap(0, 1);
    assert!(broken_price(&picture, &records, &swapped).is_some());
    assert!(broken_price(&A_BYTES, &records, &counters).is_some());
}
