//! Checking evidence. Nothing is searched here: the forests that the evidence brings are followed.

use std::ops::Range;

use crate::edition::{Edition, HEAD_BYTES, SECTION_HEAD_BYTES};
use crate::picture::{read, Picture};
use crate::reach::{Cut, Forest, Network, NOTHING};
use crate::refusals;

/// Evidence whose shape is right: everything that number 13 judges holds.
struct Evidence<'e> {
    verdict: u8,
    block: u8,
    served: u32,
    loss: u32,
    forest: Forest,
    sections: Vec<Section<'e>>,
}

struct Section<'e> {
    block: u8,
    loss: u32,
    mark: u8,
    forest: Forest,
    bytes: &'e [u8],
}

impl<'e> Evidence<'e> {
    fn read(picture: &Picture, bytes: &'e [u8]) -> Result<Evidence<'e>, u8> {
        let (edition, slots) = (picture.edition, picture.slots.len());
        let candidates = picture.candidates();
        if bytes.len() != edition.evidence_bytes(slots, candidates.len()) {
            return Err(refusals::FORM);
        }
        let (head, rest) = bytes.split_at(HEAD_BYTES);
        let (forest, rest) = rest.split_at(edition.forest_bytes(slots));
        let sections = rest.chunks(edition.section_bytes(slots));
        let evidence = Evidence {
            verdict: head[0] & 15,
            block: head[1],
            served: number(&head[3..6]),
            loss: number(&head[6..9]),
            forest: read_forest(edition, forest),
            sections: sections.map(|section| Section::read(edition, section)).collect(),
        };
        let head_fits = head[0] >> 4 == edition.number
            && evidence.verdict <= 1
            && usize::from(head[2]) == candidates.len();
        let sections_fit = evidence.sections.iter().all(|section| section.mark <= 1)
            && evidence.sections.iter().map(|section| section.block).eq(candidates);
        if head_fits && sections_fit {
            Ok(evidence)
        } else {
            Err(refusals::FORM)
        }
    }

    /// Verdict, block and loss are as the sections and their cuts imply: any admissible candidate
    /// will do that loses least and, of those, cuts fewest endpoints.
    fn verdict_fits(&self, cuts: &[Cut]) -> bool {
        let admissible = || self.sections.iter().zip(cuts).filter(|(_, cut)| cut.mark == 0);
        match admissible().map(|(_, cut)| cut.rank()).min() {
            None => self.verdict == 0 && self.block == 0 && self.loss == 0,
            Some(least) => {
                let named = |(section, cut): (&Section, &Cut)| {
                    section.block == self.block && section.loss == self.loss && cut.rank() == least
                };
                self.verdict == 1 && admissible().any(named)
            }
        }
    }
}

impl<'e> Section<'e> {
    fn read(edition: Edition, bytes: &'e [u8]) -> Section<'e> {
        Section {
            block: bytes[0],
            loss: number(&bytes[1..4]),
            mark: bytes[4],
            forest: read_forest(edition, &bytes[SECTION_HEAD_BYTES..]),
            bytes,
        }
    }
}

/// The high byte first.
fn number(bytes: &[u8]) -> u32 {
    bytes.iter().fold(0, |value, byte| value << 8 | u32::from(*byte))
}

fn read_forest(edition: Edition, bytes: &[u8]) -> Forest {
    let width = edition.location_width;
    let mut forest = Forest::bare(bytes.len() / edition.entry_bytes());
    for (location, entry) in (1..).zip(bytes.chunks(edition.entry_bytes()).map(number)) {
        forest.parent[location] = (entry >> width) as u16;
        forest.depth[location] = (entry & ((1 << width) - 1)) as u16;
    }
    forest
}

/// Every entry hangs on a chain from the origin, and no link leads on from the forest.
fn forest_fits(network: &Network, forest: &Forest, evicted: &Range<usize>) -> bool {
    let slots = network.picture.slots.len();
    (1..=slots).all(|slot| entry_fits(network, forest, slot, evicted))
        && (0..=slots)
            .filter(|from| forest.reaches(*from))
            .all(|from| no_link_leads_on(network, forest, from, evicted))
}

fn entry_fits(network: &Network, forest: &Forest, slot: usize, evicted: &Range<usize>) -> bool {
    let parent = usize::from(forest.parent[slot]);
    let depth = forest.depth[slot];
    if depth == 0 {
        return parent == 0;
    }
    network.carries(slot, evicted)
        && parent <= network.picture.slots.len()
        // A slot of depth 0 is no parent, though its depth is the origin's.
        && forest.reaches(parent)
        && forest.depth[parent] == depth - 1
        && network.links[parent].binary_search(&(slot as u16)).is_ok()
}

fn no_link_leads_on(network: &Network, forest: &Forest, from: usize, evicted: &Range<usize>) -> bool {
    network.links[from].iter().all(|&to| {
        let to = usize::from(to);
        forest.reaches(to) || !network.carries(to, evicted)
    })
}

/// The cut of each section, by the forests that the evidence brings, or the first fault of forests
/// and sections. Evidence does not state how many endpoints a candidate cuts; the cut tells it.
fn cuts(picture: &Picture, evidence: &Evidence) -> Result<Vec<Cut>, u8> {
    let network = Network::new(picture);
    if !forest_fits(&network, &evidence.forest, &NOTHING) {
        return Err(refusals::FOREST);
    }
    let before = network.served(&evidence.forest);
    if network.served_weight(&before) != evidence.served {
        return Err(refusals::WEIGHT);
    }
    let cut = |section: &Section| {
        let evicted = picture.block_locations(usize::from(section.block));
        if !forest_fits(&network, &section.forest, &evicted) {
            return Err(refusals::FOREST);
        }
        let cut = network.cut(&before, &network.served(&section.forest));
        if cut.loss != section.loss || cut.mark != section.mark {
            return Err(refusals::WEIGHT);
        }
        Ok(cut)
    };
    evidence.sections.iter().map(cut).collect()
}

fn checked<'e>(picture: &[u8], evidence: &'e [u8]) -> Result<Evidence<'e>, u8> {
    let picture = read(picture)?;
    let evidence = Evidence::read(&picture, evidence)?;
    let cuts = cuts(&picture, &evidence)?;
    if evidence.verdict_fits(&cuts) {
        Ok(evidence)
    } else {
        Err(refusals::VERDICT)
    }
}

/// Whether the evidence passes for the picture, or its first fault.
pub fn check(picture: &[u8], evidence: &[u8]) -> Result<(), u8> {
    checked(picture, evidence).map(|_| ())
}

/// The chosen candidate's section of the evidence; the empty part at its start if there is none.
pub fn show<'e>(picture: &[u8], evidence: &'e [u8]) -> &'e [u8] {
    let empty = &evidence[..0];
    match checked(picture, evidence) {
        Ok(passed) if passed.verdict == 1 => passed
            .sections
            .iter()
            .find(|section| section.block == passed.block)
            .map_or(empty, |section| section.bytes),
        _ => empty,
    }
}
