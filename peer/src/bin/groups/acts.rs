//! Lists of calls, reloads at the edge of the near limit, and acts on what could come back.

use peer::calls::{any_calls, waiting, Act, Call};
use peer::networks::{network, tied, Size, SHAPES};
use peer::pack;
use peer::picture::{Picture, State};
use peer::random::Random;

use super::harness::Comparison;
use super::{all_acts, any_network, choose_and_check, mostly_small};

/// Every block reloaded with the near limit just under, at and just over what is then held.
pub fn near_limits(comparison: &mut Comparison, random: &mut Random, count: usize) {
    for round in 0..2 * count {
        let mut picture = any_network(random, round, 96);
        for block in 0..picture.block_count() {
            let then = held_near_after_reload(&picture, block);
            for limit in [then.saturating_sub(1), then, then + 1] {
                picture.near_limit = limit as u16;
                let reload = Call { act: Act::Reload, block: block as u32 };
                comparison.act(&reload, &mut pack(&picture));
            }
        }
    }
}

fn held_near_after_reload(picture: &Picture, block: usize) -> usize {
    let mut reloaded = picture.clone();
    for location in picture.block_locations(block) {
        if reloaded.slots[location - 1].state == State::Recoverable {
            reloaded.slots[location - 1].state = State::Held;
        }
    }
    reloaded.held_near()
}

/// Every act on every block of networks with protected endpoints that only a reload can serve.
pub fn waiting_endpoints(comparison: &mut Comparison, random: &mut Random, count: usize) {
    for round in 0..2 * count {
        let size = match round % 2 {
            0 => mostly_small(random, round, 64),
            _ => Size::middle(random),
        };
        let picture = waiting(random, size);
        all_acts(comparison, &pack(&picture), 0..picture.block_count() as u32);
    }
}

/// Some tens of calls on one picture, mostly a small one or one of middle size.
pub fn short_lists(comparison: &mut Comparison, random: &mut Random, count: usize) {
    for round in 0..count.div_ceil(2) {
        let picture = any_or_waiting(random, round);
        one_list(comparison, random, &picture, 30);
    }
}

/// Networks of any shape, in half of which nothing is protected, and, in every second round, such with
/// endpoints that wait for a reload.
fn any_or_waiting(random: &mut Random, round: usize) -> Picture {
    if round % 2 == 1 {
        let size = Size::middle(random);
        return waiting(random, size);
    }
    let mut picture = any_network(random, round, 32);
    if random.once_in(2) {
        picture.endpoints.iter_mut().for_each(|endpoint| endpoint.protected = false);
        picture.near_limit = picture.edition.max_near_limit();
    }
    picture
}

/// Some hundreds of calls on one picture, mostly one of middle size.
pub fn long_lists(comparison: &mut Comparison, random: &mut Random, count: usize) {
    for round in 0..count.div_ceil(16) {
        let mut picture = mostly_middle(random, round);
        enliven(random, &mut picture);
        let length = random.between(200, 400);
        one_list(comparison, random, &picture, length);
    }
}

/// Networks of any shape and, in every second round, such in which most endpoints hang on one block.
fn mostly_middle(random: &mut Random, round: usize) -> Picture {
    let size = match round % 32 {
        0 => Size::full(random),
        8 => Size::any(random),
        16 => Size::beyond_first(random),
        4 | 12 | 20 | 28 => Size::small(random),
        _ => Size::middle(random),
    };
    if round % 2 == 1 {
        let blocks = size.slots / size.block_size;
        return tied(random, size.edition, size.block_size, blocks, blocks + size.endpoints);
    }
    let shape = *random.pick(&SHAPES);
    network(random, shape, size)
}

/// Lets many acts be done and some be refused for each reason: most freed slots become recoverable
/// and, in most networks, there is room for a part of the near slots and some endpoints are protected.
fn enliven(random: &mut Random, picture: &mut Picture) {
    for slot in &mut picture.slots {
        if slot.state == State::Freed && !random.once_in(8) {
            slot.state = State::Recoverable;
        }
    }
    if !random.once_in(4) {
        let near = picture.slots.iter().filter(|slot| slot.near).count();
        picture.near_limit = random.between(near / 2, near) as u16;
    }
    if !random.once_in(4) {
        for endpoint in &mut picture.endpoints {
            endpoint.protected = random.once_in(4);
        }
    }
}

/// So many calls of chance, refused ones among them, with choose and check in between. Holds the promise
/// over lists after each call: from the moment before it, from the start, and from one of chance.
fn one_list(comparison: &mut Comparison, random: &mut Random, start: &Picture, length: usize) {
    let calls = any_calls(random, start.block_count(), length);
    let mut moments = vec![pack(start)];
    for (step, call) in calls.iter().enumerate() {
        let mut bytes = moments[step].clone();
        comparison.act(call, &mut bytes);
        for from in [step, 0, random.below(step + 1)] {
            comparison.expect_kept(&moments[from], &calls[from..=step], &bytes);
        }
        if step % 10 == 9 {
            choose_and_check(comparison, random, &bytes);
        }
        moments.push(bytes);
    }
}
