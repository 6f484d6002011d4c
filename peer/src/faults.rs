//! Faults in lists that are right, a kind at a time: small changes, which can also be made together
//! so that their order shows. And pictures with every two numbers in their links wrong.

use crate::edition::{Edition, EDITIONS, MAX_BLOCK_SIZE, SECOND};
use crate::lists::Lists;
use crate::picture::Picture;
use crate::random::Random;
use crate::refusals;

pub type Fault = fn(&mut Random, &mut Lists);

/// In the order in which they are judged; the last two link by link.
pub const FAULTS: [Fault; 9] = [
    edition,
    block_size,
    near_limit,
    slot_columns,
    endpoint_columns,
    state,
    link_end,
    serving_location,
    serving_endpoint,
];

fn edition(random: &mut Random, lists: &mut Lists) {
    lists.edition = no_such(random, lists.edition, EDITIONS.len() as u32);
}

fn block_size(random: &mut Random, lists: &mut Lists) {
    lists.block_size = no_such(random, lists.block_size, MAX_BLOCK_SIZE as u32);
}

/// A number that is not from 1 to `most`; most have the right one in their low bits.
fn no_such(random: &mut Random, right: u32, most: u32) -> u32 {
    let beyond = *random.pick(&[1 << 4, 1 << 8, 1 << 16, 1 << 31]) | right;
    *random.pick(&[0, most + 1, beyond, u32::MAX])
}

/// Too wide for the header of the edition, if it is one.
fn near_limit(random: &mut Random, lists: &mut Lists) {
    let edition = Edition::of(lists.edition).unwrap_or(SECOND);
    lists.near_limit = beyond(random, usize::from(edition.max_near_limit()));
}

fn slot_columns(random: &mut Random, lists: &mut Lists) {
    match random.below(2) {
        0 => another_length(random, &mut lists.states),
        _ => another_length(random, &mut lists.near),
    }
}

fn endpoint_columns(random: &mut Random, lists: &mut Lists) {
    match random.below(2) {
        0 => another_length(random, &mut lists.weights),
        _ => another_length(random, &mut lists.protected),
    }
}

fn another_length<T: Clone + Default>(random: &mut Random, column: &mut Vec<T>) {
    let length = column.len();
    let others = [length + 1, length + 2, length.saturating_sub(1), length / 2];
    column.resize(*random.pick(&others), T::default());
}

fn state(random: &mut Random, lists: &mut Lists) {
    let random_one = random.between(3, 255) as u8;
    let state = *random.pick(&[3, 4, 255, random_one]);
    if let Some(row) = some_row(random, &mut lists.states) {
        *row = state;
    }
}

fn link_end(random: &mut Random, lists: &mut Lists) {
    let location = beyond(random, lists.states.len());
    if let Some(link) = some_row(random, &mut lists.links) {
        link[random.below(2)] = location;
    }
}

fn serving_location(random: &mut Random, lists: &mut Lists) {
    let location = beyond(random, lists.states.len());
    if let Some(link) = some_row(random, &mut lists.serving) {
        link[0] = location;
    }
}

fn serving_endpoint(random: &mut Random, lists: &mut Lists) {
    let above = beyond(random, lists.weights.len());
    let endpoint = *random.pick(&[0, above]);
    if let Some(link) = some_row(random, &mut lists.serving) {
        link[1] = endpoint;
    }
}

/// The first row, the last or any, if there is one.
fn some_row<'l, T>(random: &mut Random, rows: &'l mut [T]) -> Option<&'l mut T> {
    let last = rows.len().checked_sub(1)?;
    let any = random.between(0, last);
    rows.get_mut(*random.pick(&[0, last, any]))
}

/// A number above `limit`: the next one, ones of which a field of 8 or 12 bits would keep a right
/// number, and the largest. Longer lists than a picture's are refused whatever their rows say.
fn beyond(random: &mut Random, limit: usize) -> u16 {
    let limit = limit.min(usize::from(SECOND.max_near_limit()));
    let widths = EDITIONS.map(|edition| edition.location_width).into_iter();
    let wide_enough: Vec<usize> = widths.filter(|width| limit < 1 << width).collect();
    let width = *random.pick(&wide_enough);
    let right = random.between(0, limit);
    let high = random.between(1, (1 << (16 - width)) - 1) << width;
    *random.pick(&[limit + 1, 1 << width, 1 << width | right, high | right, usize::from(u16::MAX)])
        as u16
}

/// A picture that is right with one number in its links and serving links made wrong, or two, each
/// time with the refusal that is due: that of the first.
pub fn wrong_ends(picture: &Picture) -> Vec<(u8, Picture)> {
    let count = 2 * (picture.links.len() + picture.serving.len());
    let mut wrong = Vec::new();
    for first in 0..count {
        for second in first..count {
            let mut picture = picture.clone();
            let due = spoil(&mut picture, first);
            spoil(&mut picture, second);
            wrong.push((due, picture));
        }
    }
    wrong
}

/// Makes a number in a link or serving link wrong and tells what that gets. The place counts these
/// numbers in the order of the layout.
fn spoil(picture: &mut Picture, place: usize) -> u8 {
    let no_location = picture.slots.len() as u16 + 1;
    let no_endpoint = picture.endpoints.len() as u8 + 1;
    let (row, is_first) = (place / 2, place % 2 == 0);
    if let Some((from, to)) = picture.links.get_mut(row) {
        *(if is_first { from } else { to }) = no_location;
        return refusals::LINK;
    }
    let row = row - picture.links.len();
    let (location, endpoint) = &mut picture.serving[row];
    if is_first {
        *location = no_location;
        return refusals::SERVICE_LOCATION;
    }
    *endpoint = [no_endpoint, 0][row % 2];
    refusals::SERVICE_ENDPOINT
}
