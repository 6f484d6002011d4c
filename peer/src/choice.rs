//! Weighing blocks, choosing one, and writing the evidence for it.

use crate::edition::Edition;
use crate::picture::{read, Picture};
use crate::reach::{Cut, Forest, Network, NOTHING};
use crate::refusals;

/// One candidate with its cut and the forest without it.
pub struct Section {
    pub block: u8,
    pub cut: Cut,
    pub forest: Forest,
}

/// All that the evidence states, before the verdict. It is of the picture's edition.
pub struct Plan {
    pub edition: Edition,
    pub served: u32,
    pub forest: Forest,
    pub sections: Vec<Section>,
}

impl Plan {
    /// One search now, and one for each candidate.
    pub fn of(picture: &Picture) -> Plan {
        let network = Network::new(picture);
        let forest = network.search(&NOTHING);
        let before = network.served(&forest);
        let sections = picture
            .candidates()
            .into_iter()
            .map(|block| {
                let forest = network.search(&picture.block_locations(usize::from(block)));
                let cut = network.cut(&before, &network.served(&forest));
                Section { block, cut, forest }
            })
            .collect();
        Plan { edition: picture.edition, served: network.served_weight(&before), forest, sections }
    }

    pub fn admissible(&self) -> impl Iterator<Item = &Section> {
        self.sections.iter().filter(|section| section.cut.mark == 0)
    }

    /// The admissible candidate that loses least and, of those, cuts fewest endpoints; `min_by_key`
    /// gives the first of equals, the lowest.
    pub fn least(&self) -> Option<&Section> {
        self.admissible().min_by_key(|section| section.cut.rank())
    }

    /// The evidence that names `chosen`, or "none".
    pub fn evidence(&self, chosen: Option<&Section>) -> Vec<u8> {
        let slots = self.forest.depth.len() - 1;
        let mut bytes = Vec::with_capacity(self.edition.evidence_bytes(slots, self.sections.len()));
        let (verdict, block, loss) = match chosen {
            Some(section) => (1, section.block, section.cut.loss),
            None => (0, 0, 0),
        };
        bytes.extend([self.edition.number << 4 | verdict, block, self.sections.len() as u8]);
        push_24_bits(&mut bytes, self.served);
        push_24_bits(&mut bytes, loss);
        push_forest(&mut bytes, self.edition, &self.forest);
        for section in &self.sections {
            bytes.push(section.block);
            push_24_bits(&mut bytes, section.cut.loss);
            bytes.push(section.cut.mark);
            push_forest(&mut bytes, self.edition, &section.forest);
        }
        bytes
    }
}

fn push_24_bits(bytes: &mut Vec<u8>, value: u32) {
    bytes.extend(&value.to_be_bytes()[1..]);
}

fn push_forest(bytes: &mut Vec<u8>, edition: Edition, forest: &Forest) {
    let start = bytes.len();
    bytes.resize(start + edition.forest_bytes(forest.depth.len() - 1), 0);
    let entries = bytes[start..].chunks_exact_mut(edition.entry_bytes());
    for (entry, (parent, depth)) in entries.zip(forest.parent.iter().zip(&forest.depth).skip(1)) {
        let value = u32::from(*parent) << edition.location_width | u32::from(*depth);
        for (byte, shift) in entry.iter_mut().rev().zip([0, 8, 16]) {
            *byte = (value >> shift) as u8;
        }
    }
}

/// Served weight, and loss and mark of a block, be it a candidate or not.
pub fn weigh(picture: &[u8], block: u32) -> Result<(u32, u32, u8), u8> {
    let picture = read(picture)?;
    let locations = picture.named_block(block)?;
    let (served, cut) = Network::new(&picture).weigh(&locations);
    Ok((served, cut.loss, cut.mark))
}

/// Writes the evidence to the start of the lent buffer and gives its length.
pub fn choose(picture: &[u8], evidence: &mut [u8]) -> Result<usize, u8> {
    let picture = read(picture)?;
    let length = picture.edition.evidence_bytes(picture.slots.len(), picture.candidates().len());
    let written = evidence.get_mut(..length).ok_or(refusals::BUFFER)?;
    let plan = Plan::of(&picture);
    written.copy_from_slice(&plan.evidence(plan.least()));
    Ok(length)
}
