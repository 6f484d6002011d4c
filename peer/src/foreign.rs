//! Evidence from another maker: valid, but with forests that are not the canonical ones and, where
//! candidates tie, with any of them named.

use std::ops::Range;

use crate::choice::{Plan, Section};
use crate::picture::Picture;
use crate::random::Random;
use crate::reach::{Forest, Network, NOTHING};

/// How another maker's forest grows.
#[derive(Clone, Copy, Debug)]
pub enum Growth {
    /// Always on from the slot reached last: long chains.
    Deep,
    /// On from any slot reached.
    Anywhere,
    /// Fewest links, but any parent of the right depth.
    AnyParent,
}

pub const GROWTHS: [Growth; 3] = [Growth::Deep, Growth::Anywhere, Growth::AnyParent];

/// Valid evidence for the picture with other forests.
pub fn evidence(random: &mut Random, picture: &Picture, growth: Growth) -> Vec<u8> {
    let plan = plan(random, picture, growth);
    plan.evidence(any_least(random, &plan))
}

/// What such evidence states, before the verdict.
pub fn plan(random: &mut Random, picture: &Picture, growth: Growth) -> Plan {
    let network = Network::new(picture);
    let mut plan = Plan::of(picture);
    plan.forest = forest(random, &network, &NOTHING, growth);
    for section in &mut plan.sections {
        let evicted = picture.block_locations(usize::from(section.block));
        section.forest = forest(random, &network, &evicted, growth);
    }
    plan
}

/// Any of the admissible candidates that lose least and, of those, cut fewest endpoints.
pub fn any_least<'p>(random: &mut Random, plan: &'p Plan) -> Option<&'p Section> {
    let least = plan.least()?.cut.rank();
    let ties: Vec<&Section> = plan.admissible().filter(|section| section.cut.rank() == least).collect();
    Some(*random.pick(&ties))
}

fn forest(random: &mut Random, network: &Network, evicted: &Range<usize>, growth: Growth) -> Forest {
    match growth {
        Growth::Deep => grown(random, network, evicted, |_, open| open - 1),
        Growth::Anywhere => grown(random, network, evicted, |random, open| random.below(open)),
        Growth::AnyParent => any_parents(random, network, network.search(evicted)),
    }
}

/// Grows a tree link by link; `next` says from which of the open locations to go on.
fn grown(
    random: &mut Random,
    network: &Network,
    evicted: &Range<usize>,
    next: impl Fn(&mut Random, usize) -> usize,
) -> Forest {
    let mut forest = Forest::bare(network.picture.slots.len());
    let mut open = vec![0];
    while !open.is_empty() {
        let place = next(random, open.len());
        let from: usize = open[place];
        let fresh: Vec<u16> = network.links[from]
            .iter()
            .copied()
            .filter(|&to| !forest.reaches(usize::from(to)) && network.carries(usize::from(to), evicted))
            .collect();
        if fresh.is_empty() {
            open.swap_remove(place);
            continue;
        }
        let to = usize::from(*random.pick(&fresh));
        forest.parent[to] = from as u16;
        forest.depth[to] = forest.depth[from] + 1;
        open.push(to);
    }
    forest
}

fn any_parents(random: &mut Random, network: &Network, mut forest: Forest) -> Forest {
    for slot in 1..forest.depth.len() {
        if forest.depth[slot] == 0 {
            continue;
        }
        let parents: Vec<u16> = (0..forest.depth.len())
            .filter(|&from| forest.reaches(from) && forest.depth[from] + 1 == forest.depth[slot])
            .filter(|&from| network.links[from].contains(&(slot as u16)))
            .map(|from| from as u16)
            .collect();
        forest.parent[slot] = *random.pick(&parents);
    }
    forest
}
