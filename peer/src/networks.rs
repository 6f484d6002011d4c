//! Random networks of many shapes, every one within the limits of its edition.

use crate::edition::{Edition, EDITIONS, FIRST, MAX_BLOCK_SIZE, MAX_ENDPOINTS, MAX_LINKS, SECOND};
use crate::picture::{Endpoint, Picture, Slot, State};
use crate::random::Random;

#[derive(Clone, Copy, Debug)]
pub struct Size {
    pub edition: Edition,
    pub block_size: usize,
    pub slots: usize,
    pub endpoints: usize,
    pub links: usize,
    pub serving: usize,
}

impl Size {
    /// The size that a picture has.
    pub fn of(picture: &Picture) -> Size {
        Size {
            edition: picture.edition,
            block_size: usize::from(picture.block_size),
            slots: picture.slots.len(),
            endpoints: picture.endpoints.len(),
            links: picture.links.len(),
            serving: picture.serving.len(),
        }
    }

    /// A few slots, so that every field of the evidence can be tried.
    pub fn small(random: &mut Random) -> Size {
        let block_size = random.between(1, 3);
        Size {
            edition: any_edition(random),
            block_size,
            slots: block_size * random.between(1, 4),
            endpoints: random.between(0, 4),
            links: random.between(0, 14),
            serving: random.between(0, 8),
        }
    }

    /// Some blocks, so that many acts can be done, and links enough for most of them to matter.
    pub fn middle(random: &mut Random) -> Size {
        let block_size = random.between(1, 4);
        let slots = block_size * random.between(3, 10);
        let endpoints = random.between(1, 10);
        Size {
            edition: any_edition(random),
            block_size,
            slots,
            endpoints,
            links: random.between(slots, 3 * slots),
            serving: random.between(endpoints, 2 * endpoints),
        }
    }

    /// Any size up to the limits.
    pub fn any(random: &mut Random) -> Size {
        let block_size = random.between(1, MAX_BLOCK_SIZE);
        Size::of_blocks(random, block_size)
    }

    /// Blocks of this size, and the rest any up to the limits.
    pub fn of_blocks(random: &mut Random, block_size: usize) -> Size {
        let edition = any_edition(random);
        Size::from_blocks(random, edition, block_size, 1)
    }

    /// More slots than the first edition has room for, so that most of these sizes have locations
    /// that take more than a byte.
    pub fn beyond_first(random: &mut Random) -> Size {
        let edition = SECOND;
        let most = |block_size: &usize| block_size * edition.most_blocks(*block_size);
        let large: Vec<usize> =
            (1..=MAX_BLOCK_SIZE).filter(|block_size| most(block_size) > FIRST.max_slots).collect();
        let block_size = *random.pick(&large);
        Size::from_blocks(random, edition, block_size, FIRST.max_slots / block_size + 1)
    }

    /// At least so many blocks of this size, and the rest any up to the limits.
    fn from_blocks(random: &mut Random, edition: Edition, block_size: usize, least: usize) -> Size {
        let slots = block_size * random.between(least, edition.most_blocks(block_size));
        Size {
            edition,
            block_size,
            slots,
            endpoints: random.between(0, MAX_ENDPOINTS),
            links: random.between(0, MAX_LINKS.min(8 * slots)),
            serving: random.between(0, MAX_LINKS),
        }
    }

    /// As many blocks as there may be, and endpoints, links and serving links at their limits.
    pub fn full(random: &mut Random) -> Size {
        let edition = any_edition(random);
        let block_size = *random.pick(&[4, 4, 4, 5, 5, 6, 8, 12, 15]);
        Size::longest(edition, block_size)
    }

    /// The size of the longest picture with blocks of this size.
    pub const fn longest(edition: Edition, block_size: usize) -> Size {
        Size {
            edition,
            block_size,
            slots: block_size * edition.most_blocks(block_size),
            endpoints: MAX_ENDPOINTS,
            links: MAX_LINKS,
            serving: MAX_LINKS,
        }
    }
}

pub fn any_edition(random: &mut Random) -> Edition {
    *random.pick(&EDITIONS)
}

#[derive(Clone, Copy, Debug)]
pub enum Shape {
    /// Links between any two locations.
    Dense,
    /// Each slot linked to the next, in a random order of the slots.
    Chain,
    /// A chain closed to a ring, with or without a link from the origin.
    Cycle,
    /// One hub that is linked to all others.
    Star,
    /// Every link leaves the origin.
    Flat,
    /// Most slots have no chain from the origin.
    Unreached,
    /// Few distinct links, many times, with links to oneself and into the origin.
    Repeated,
    /// Layers of a few slots, so that slots have several parents of one depth.
    Layers,
}

pub const SHAPES: [Shape; 8] = [
    Shape::Dense,
    Shape::Chain,
    Shape::Cycle,
    Shape::Star,
    Shape::Flat,
    Shape::Unreached,
    Shape::Repeated,
    Shape::Layers,
];

/// A random network of this shape: links, states, near marks, weights and protection mixed.
pub fn network(random: &mut Random, shape: Shape, size: Size) -> Picture {
    let slots = random_slots(random, size.slots);
    let endpoints = random_endpoints(random, size.endpoints);
    let links = random_links(random, shape, size);
    let serving = random_serving(random, size);
    let most = size.edition.max_near_limit();
    let near_limit = *random.pick(&[0, 1, size.slots as u16 / 2, size.slots as u16, 255, most]);
    Picture {
        edition: size.edition,
        block_size: size.block_size as u8,
        near_limit,
        slots,
        endpoints,
        links,
        serving,
    }
}

/// A dense random network for measuring: every slot is held and near and, where there are links
/// enough, reached, so that times of different sizes can be set side by side.
pub fn dense_held(random: &mut Random, size: Size) -> Picture {
    let mut picture = network(random, Shape::Dense, size);
    hold_all(&mut picture);
    picture.near_limit = size.edition.max_near_limit();
    for (slot, link) in (1..=size.slots).zip(&mut picture.links) {
        *link = (random.below(slot) as u16, slot as u16);
    }
    random.shuffle(&mut picture.links);
    for endpoint in &mut picture.endpoints {
        *endpoint = Endpoint { weight: random.below(1000) as u16, protected: random.once_in(16) };
    }
    picture
}

/// A network in which every link starts at the origin. Links and serving links are repeated, links may
/// end at the origin, and in many networks most endpoints have one block that serves them.
pub fn flat(random: &mut Random, size: Size) -> Picture {
    let mut picture = network(random, Shape::Flat, size);
    picture.links.iter_mut().for_each(|(from, _)| *from = 0);
    let (origin, elsewhere) = (rarely(random), *random.pick(&[0, 1, 4, 32]));
    serve_from_homes(random, &mut picture, origin, elsewhere);
    picture
}

/// A flat random network for measuring: every slot is held, near and, where there are links enough,
/// reached, and each endpoint's serving links start at slots of one block.
pub fn flat_held(random: &mut Random, size: Size) -> Picture {
    let mut picture = dense_held(random, size);
    picture.links = (0..size.links).map(|link| (0, (link % size.slots + 1) as u16)).collect();
    random.shuffle(&mut picture.links);
    serve_from_homes(random, &mut picture, 0, 0);
    picture
}

/// Lets each endpoint's serving links start at slots of one block, but for so many of 64 at the origin and
/// so many anywhere.
fn serve_from_homes(random: &mut Random, picture: &mut Picture, origin: usize, elsewhere: usize) {
    let (block_size, slots) = (usize::from(picture.block_size), picture.slots.len());
    let blocks = picture.block_count();
    let homes: Vec<usize> = picture.endpoints.iter().map(|_| random.below(blocks)).collect();
    for (location, endpoint) in &mut picture.serving {
        *location = match random.below(64) {
            share if share < origin => 0,
            share if share < origin + elsewhere => random.between(0, slots) as u16,
            _ => any_slot_of(random, block_size, homes[usize::from(*endpoint) - 1]),
        };
    }
}

fn any_slot_of(random: &mut Random, block_size: usize, block: usize) -> u16 {
    (block * block_size + random.between(1, block_size)) as u16
}

/// Each slot linked to the next in rising order, every slot held and near and serving.
pub fn long_chain(edition: Edition, block_size: usize, slots: usize, endpoints: usize) -> Picture {
    let served = |slot: usize| (slot as u16, (slot % endpoints + 1) as u8);
    Picture {
        edition,
        block_size: block_size as u8,
        near_limit: edition.max_near_limit(),
        slots: vec![Slot { state: State::Held, near: true }; slots],
        endpoints: vec![Endpoint { weight: 1, protected: false }; endpoints],
        links: (0..slots as u16).map(|from| (from, from + 1)).collect(),
        serving: (1..=slots).map(served).collect(),
    }
}

/// A network in which blocks often lose equal weight and cut unequal numbers of endpoints. Each
/// endpoint has a home, the block that serves it; there are at least as many endpoints as blocks.
pub fn tied(
    random: &mut Random,
    edition: Edition,
    block_size: usize,
    blocks: usize,
    endpoints: usize,
) -> Picture {
    let homes = random_homes(random, blocks, endpoints);
    let weights = equal_sums(random, &homes);
    let protected = rarely(random);
    let endpoint = |weight| Endpoint { weight, protected: random.below(32) < protected };
    Picture {
        edition,
        block_size: block_size as u8,
        near_limit: edition.max_near_limit(),
        endpoints: weights.into_iter().map(endpoint).collect(),
        slots: mostly_held_near(random, block_size * blocks),
        links: mostly_from_origin(random, block_size * blocks),
        serving: mostly_from_home(random, block_size, blocks, &homes),
    }
}

/// Links named again until there are as many as there may be.
pub fn repeat_links(random: &mut Random, picture: &mut Picture) {
    while picture.links.len() < MAX_LINKS {
        let link = *random.pick(&picture.links);
        picture.links.push(link);
    }
}

pub fn hold_all(picture: &mut Picture) {
    picture.slots.fill(Slot { state: State::Held, near: true });
}

fn random_slots(random: &mut Random, count: usize) -> Vec<Slot> {
    // Shares in eighths: how many slots are not held, and how many are far.
    let not_held = *random.pick(&[0, 0, 1, 2, 4, 7, 8]);
    let far = *random.pick(&[0, 0, 1, 4, 7, 8]);
    (0..count)
        .map(|_| {
            let state = match random.below(8) < not_held {
                false => State::Held,
                true => *random.pick(&[State::Recoverable, State::Freed]),
            };
            Slot { state, near: random.below(8) >= far }
        })
        .collect()
}

fn random_endpoints(random: &mut Random, count: usize) -> Vec<Endpoint> {
    // Small weights bring ties, the largest the largest sums.
    let (lowest, highest) = *random.pick(&[(0, 0), (0, 2), (1, 1), (0, 65535), (65535, 65535)]);
    let protected = *random.pick(&[0, 1, 4, 16, 64]);
    (0..count)
        .map(|_| Endpoint {
            weight: random.between(lowest, highest) as u16,
            protected: random.below(64) < protected,
        })
        .collect()
}

fn random_serving(random: &mut Random, size: Size) -> Vec<(u16, u8)> {
    if size.endpoints == 0 {
        return Vec::new();
    }
    // Serving from few locations makes single blocks matter.
    let locations = match random.below(3) {
        0 => random.between(0, size.slots),
        _ => size.slots,
    };
    (0..size.serving)
        .map(|_| (random.between(0, locations) as u16, random.between(1, size.endpoints) as u8))
        .collect()
}

/// A block for each endpoint, and at least one endpoint for each block. In some networks many are of
/// one block, so that the numbers of endpoints lie far apart.
fn random_homes(random: &mut Random, blocks: usize, endpoints: usize) -> Vec<usize> {
    let (crowded, quarters) = (random.below(blocks), random.below(4));
    let mut homes: Vec<usize> = (0..blocks).collect();
    homes.extend((blocks..endpoints).map(|_| match random.below(4) < quarters {
        false => random.below(blocks),
        true => crowded,
    }));
    random.shuffle(&mut homes);
    homes
}

/// Weights of the same sum in each home: an endpoint takes a part of what is left there, often
/// nothing, and the last one the rest.
fn equal_sums(random: &mut Random, homes: &[usize]) -> Vec<u16> {
    let part = *random.pick(&[0, 1, 1, 1, 1000, 10_000]);
    let mut left = vec![random.between(0, 6); homes.len()];
    let mut weights = Vec::with_capacity(homes.len());
    for (place, &home) in homes.iter().enumerate() {
        let taken = match homes[place + 1..].contains(&home) {
            true => random.between(0, left[home].min(2)),
            false => left[home],
        };
        left[home] -= taken;
        weights.push(taken as u16 * part);
    }
    weights
}

/// How often, out of 32 or 64 times, a network has what spoils ties or feeds alone; half of the
/// networks never.
fn rarely(random: &mut Random) -> usize {
    *random.pick(&[0, 0, 1, 4])
}

fn mostly_held_near(random: &mut Random, count: usize) -> Vec<Slot> {
    let (not_held, far) = (rarely(random), rarely(random));
    (0..count)
        .map(|_| {
            let state = match random.below(32) < not_held {
                false => State::Held,
                true => *random.pick(&[State::Recoverable, State::Freed]),
            };
            Slot { state, near: random.below(32) >= far }
        })
        .collect()
}

/// A link to each slot, from the origin or, so that blocks cut what hangs on them too, a lower slot;
/// and links of any kind, which let other forests be.
fn mostly_from_origin(random: &mut Random, slots: usize) -> Vec<(u16, u16)> {
    let hanging = rarely(random);
    let from = |random: &mut Random, slot: usize| match random.below(32) < hanging {
        false => 0,
        true => random.below(slot) as u16,
    };
    let mut links: Vec<(u16, u16)> = (1..=slots).map(|slot| (from(random, slot), slot as u16)).collect();
    links.extend((0..random.between(0, slots)).map(|_| any_link(random, slots)));
    random.shuffle(&mut links);
    links
}

/// One to three serving links from slots of the home, which may be the same; some endpoints have one
/// from any location too, so that it may be that no block cuts them.
fn mostly_from_home(
    random: &mut Random,
    block_size: usize,
    blocks: usize,
    homes: &[usize],
) -> Vec<(u16, u8)> {
    let elsewhere = rarely(random);
    let mut serving = Vec::new();
    for (endpoint, home) in (1..).zip(homes) {
        for _ in 0..random.between(1, 3) {
            serving.push((any_slot_of(random, block_size, *home), endpoint));
        }
        if random.below(32) < elsewhere {
            serving.push((random.between(0, block_size * blocks) as u16, endpoint));
        }
    }
    random.shuffle(&mut serving);
    serving
}

fn random_links(random: &mut Random, shape: Shape, size: Size) -> Vec<(u16, u16)> {
    let mut links = match shape {
        Shape::Dense => filled(random, size.links, |random| any_link(random, size.slots)),
        Shape::Chain => chain(random, size.slots),
        Shape::Cycle => cycle(random, size.slots),
        Shape::Star => star(random, size.slots),
        Shape::Flat => filled(random, size.links, |random| (0, random.between(0, size.slots) as u16)),
        Shape::Unreached => filled(random, size.links, |random| apart(random, size.slots)),
        Shape::Repeated => repeated(random, size),
        Shape::Layers => filled(random, size.links, |random| between_layers(random, size.slots)),
    };
    add_some(random, &mut links, size);
    random.shuffle(&mut links);
    links.truncate(MAX_LINKS);
    links
}

fn filled(
    random: &mut Random,
    count: usize,
    mut link: impl FnMut(&mut Random) -> (u16, u16),
) -> Vec<(u16, u16)> {
    (0..count).map(|_| link(random)).collect()
}

fn any_link(random: &mut Random, slots: usize) -> (u16, u16) {
    (random.between(0, slots) as u16, random.between(0, slots) as u16)
}

/// A few links of any kind in some networks, so that no shape is always pure.
fn add_some(random: &mut Random, links: &mut Vec<(u16, u16)>, size: Size) {
    if random.once_in(3) {
        for _ in 0..random.below(4) {
            links.push(any_link(random, size.slots));
        }
    }
}

fn chain(random: &mut Random, slots: usize) -> Vec<(u16, u16)> {
    let mut order: Vec<u16> = (1..=slots as u16).collect();
    if random.once_in(2) {
        random.shuffle(&mut order);
    }
    order.insert(0, 0);
    order.windows(2).map(|pair| (pair[0], pair[1])).collect()
}

fn cycle(random: &mut Random, slots: usize) -> Vec<(u16, u16)> {
    let mut links = chain(random, slots);
    links.push((links[slots - 1].1, links[0].1));
    if random.once_in(2) {
        links.remove(0);
    }
    links
}

fn star(random: &mut Random, slots: usize) -> Vec<(u16, u16)> {
    let hub = random.between(1, slots) as u16;
    let mut links: Vec<(u16, u16)> = (1..=slots as u16).map(|to| (hub, to)).collect();
    links.push((0, hub));
    links
}

fn apart(random: &mut Random, slots: usize) -> (u16, u16) {
    let edge = slots / 4;
    match random.once_in(4) {
        true => (random.between(0, edge) as u16, random.between(0, edge) as u16),
        false => (random.between(edge + 1, slots) as u16, random.between(0, slots) as u16),
    }
}

fn repeated(random: &mut Random, size: Size) -> Vec<(u16, u16)> {
    let mut few = vec![(0, 1), (1, 1), (1, 0), (0, 0)];
    few.extend(filled(random, 6, |random| any_link(random, size.slots)));
    filled(random, size.links, |random| *random.pick(&few))
}

fn between_layers(random: &mut Random, slots: usize) -> (u16, u16) {
    const WIDTH: usize = 5;
    let layer = random.below(slots.div_ceil(WIDTH));
    let to = (layer * WIDTH + random.between(1, WIDTH)).min(slots);
    let from = match layer {
        0 => 0,
        _ => (layer - 1) * WIDTH + random.between(1, WIDTH),
    };
    (from as u16, to as u16)
}
