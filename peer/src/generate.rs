//! Pictures of the first edition whose fields are drawn from a seed, so that a load of networks is the
//! same on every machine.

use crate::edition::FIRST;
use crate::picture::{pack_into, Endpoint, Header, Picture, Slot, State};
use crate::random::Random;
use crate::refusals;

const STATES: [State; 3] = [State::Held, State::Recoverable, State::Freed];

/// The sizes of a network that is asked for; they may be any numbers.
#[derive(Clone, Copy, Debug, PartialEq, Eq)]
pub struct Asked {
    pub block_size: u32,
    pub blocks: u32,
    pub endpoints: u32,
    pub links: u32,
    pub serving: u32,
}

impl Asked {
    /// The sizes that a picture has.
    pub fn of(picture: &Picture) -> Asked {
        Asked {
            block_size: picture.block_size.into(),
            blocks: picture.block_count() as u32,
            endpoints: picture.endpoints.len() as u32,
            links: picture.links.len() as u32,
            serving: picture.serving.len() as u32,
        }
    }

    /// The header of a picture of these sizes, or the number of the first that no picture has. Slots and
    /// near limit are the product, which is judged before it could be cut to fewer bits.
    fn header(&self) -> Result<Header, u8> {
        let product = u64::from(self.block_size) * u64::from(self.blocks);
        let slots = u16::try_from(product).map_err(|_| refusals::BLOCKS)?;
        let header = Header {
            edition: FIRST,
            block_size: self.block_size as usize,
            slots: usize::from(slots),
            near_limit: slots,
            endpoints: self.endpoints as usize,
            links: self.links as usize,
            serving: self.serving as usize,
        };
        header.judge_blocks()?;
        header.judge_counts()?;
        // A serving link would have no endpoint to name.
        if header.serving > 0 && header.endpoints == 0 {
            return Err(refusals::COUNTS);
        }
        Ok(header)
    }
}

/// The fields take draws in the order of the layout. That is the order in which they stand here and in
/// the functions below, and a struct's fields and a pair's are evaluated in the order in which they
/// stand.
fn drawn(random: &mut Random, header: &Header) -> Picture {
    Picture {
        edition: header.edition,
        block_size: header.block_size as u8,
        near_limit: header.near_limit,
        slots: (0..header.slots).map(|_| slot(random)).collect(),
        endpoints: (0..header.endpoints).map(|_| endpoint(random)).collect(),
        links: (0..header.links).map(|_| link(random, header)).collect(),
        serving: (0..header.serving).map(|_| serving_link(random, header)).collect(),
    }
}

fn slot(random: &mut Random) -> Slot {
    Slot { state: STATES[random.below(3)], near: random.below(2) == 1 }
}

fn endpoint(random: &mut Random) -> Endpoint {
    Endpoint { weight: random.below(65_536) as u16, protected: random.below(2) == 1 }
}

fn link(random: &mut Random, header: &Header) -> (u16, u16) {
    (location(random, header), location(random, header))
}

fn serving_link(random: &mut Random, header: &Header) -> (u16, u8) {
    (location(random, header), random.below(header.endpoints) as u8 + 1)
}

/// The origin or a slot.
fn location(random: &mut Random, header: &Header) -> u16 {
    random.below(header.slots + 1) as u16
}

/// Fills a picture of these sizes from the seed into the buffer's first bytes and gives its length, or
/// tells the first fault and leaves the buffer as it is.
pub fn generate(seed: u64, asked: &Asked, buffer: &mut [u8]) -> Result<usize, u8> {
    let header = asked.header()?;
    pack_into(&drawn(&mut Random::new(seed), &header), buffer)
}
