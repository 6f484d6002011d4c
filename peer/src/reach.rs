//! Who is reached, who is served, and what a block's eviction cuts.

use std::collections::VecDeque;
use std::ops::Range;

use crate::picture::{Picture, State};

/// No location: the evicted ones where nothing is evicted.
pub const NOTHING: Range<usize> = 0..0;

/// Parent and depth of each location, by location number. Entry 0, the origin, stays 0 and 0; a
/// slot with depth 0 is not reached.
#[derive(Clone, Debug, PartialEq, Eq)]
pub struct Forest {
    pub parent: Vec<u16>,
    pub depth: Vec<u16>,
}

impl Forest {
    /// The forest in which no slot is reached.
    pub fn bare(slots: usize) -> Forest {
        Forest { parent: vec![0; slots + 1], depth: vec![0; slots + 1] }
    }

    pub fn reaches(&self, location: usize) -> bool {
        location == 0 || self.depth[location] > 0
    }
}

/// What evicting a block does: the weight lost, how many endpoints are cut, and whether a protected
/// one is.
#[derive(Clone, Copy, Debug, PartialEq, Eq)]
pub struct Cut {
    pub loss: u32,
    pub endpoints: usize,
    pub mark: u8,
}

impl Cut {
    /// What choosing goes by before the block's number: the weight lost, then the endpoints cut.
    pub fn rank(&self) -> (u32, usize) {
        (self.loss, self.endpoints)
    }
}

/// The places of the endpoints that the first list says to be served and the second does not.
pub fn no_longer_served<'s>(before: &'s [bool], after: &'s [bool]) -> impl Iterator<Item = usize> + 's {
    (0..before.len()).filter(|&place| before[place] && !after[place])
}

/// A picture with its links in adjacency lists.
pub struct Network<'p> {
    pub picture: &'p Picture,
    /// For each location the locations that it has a link to, each once, rising.
    pub links: Vec<Vec<u16>>,
    /// For each endpoint the locations with a serving link to it.
    feeders: Vec<Vec<u16>>,
}

impl<'p> Network<'p> {
    pub fn new(picture: &'p Picture) -> Network<'p> {
        let mut links = vec![Vec::new(); picture.slots.len() + 1];
        for &(from, to) in &picture.links {
            links[usize::from(from)].push(to);
        }
        // A repeated link counts once.
        for list in &mut links {
            list.sort_unstable();
            list.dedup();
        }
        let mut feeders = vec![Vec::new(); picture.endpoints.len()];
        for &(location, endpoint) in &picture.serving {
            feeders[usize::from(endpoint) - 1].push(location);
        }
        Network { picture, links, feeders }
    }

    /// A slot that can carry a chain: held, and not among the evicted locations.
    pub fn carries(&self, slot: usize, evicted: &Range<usize>) -> bool {
        self.picture.slots[slot - 1].state == State::Held && !evicted.contains(&slot)
    }

    /// The forest of fewest links, with the lowest parents, found by one breadth-first search.
    pub fn search(&self, evicted: &Range<usize>) -> Forest {
        let mut forest = Forest::bare(self.picture.slots.len());
        let mut queue = VecDeque::from([0]);
        while let Some(from) = queue.pop_front() {
            let depth = forest.depth[usize::from(from)] + 1;
            for &next in &self.links[usize::from(from)] {
                let to = usize::from(next);
                if to == 0 || !self.carries(to, evicted) {
                    continue;
                }
                if forest.depth[to] == 0 {
                    forest.depth[to] = depth;
                    forest.parent[to] = from;
                    queue.push_back(next);
                } else if forest.depth[to] == depth && from < forest.parent[to] {
                    forest.parent[to] = from;
                }
            }
        }
        forest
    }

    /// For each endpoint, whether a location that the forest reaches serves it.
    pub fn served(&self, forest: &Forest) -> Vec<bool> {
        self.feeders
            .iter()
            .map(|feeders| feeders.iter().any(|&location| forest.reaches(usize::from(location))))
            .collect()
    }

    /// For each endpoint, whether it is served as the picture stands.
    pub fn served_now(&self) -> Vec<bool> {
        self.served(&self.search(&NOTHING))
    }

    pub fn served_weight(&self, served: &[bool]) -> u32 {
        self.picture
            .endpoints
            .iter()
            .zip(served)
            .filter(|(_, served)| **served)
            .map(|(endpoint, _)| u32::from(endpoint.weight))
            .sum()
    }

    /// The cut between two service lists: an endpoint that was not served before is not cut. One of
    /// weight 0 counts as any other.
    pub fn cut(&self, before: &[bool], after: &[bool]) -> Cut {
        let mut cut = Cut { loss: 0, endpoints: 0, mark: 0 };
        for place in no_longer_served(before, after) {
            let endpoint = &self.picture.endpoints[place];
            cut.loss += u32::from(endpoint.weight);
            cut.endpoints += 1;
            if endpoint.protected {
                cut.mark = 1;
            }
        }
        cut
    }

    /// Served weight now, and the cut if the given locations are evicted.
    pub fn weigh(&self, evicted: &Range<usize>) -> (u32, Cut) {
        let before = self.served_now();
        let after = self.served(&self.search(evicted));
        (self.served_weight(&before), self.cut(&before, &after))
    }
}
