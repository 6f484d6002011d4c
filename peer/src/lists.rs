//! The lists of a network, as a layout editor has them: written as a picture, and had from one.

use crate::edition::Edition;
use crate::picture::{pack_into, Endpoint, Header, Picture, Slot, State};
use crate::refusals;

/// The number of the edition to write, the four lists and the two sizes that no list tells. Slots
/// (`states`, `near`) and endpoints (`weights`, `protected`) have a column for each field. Links are
/// from and to, serving links are location and endpoint. Columns may have any lengths, and numbers any
/// values.
#[derive(Clone, Debug, PartialEq, Eq)]
pub struct Lists {
    pub edition: u32,
    pub block_size: u32,
    pub near_limit: u16,
    pub states: Vec<u8>,
    pub near: Vec<bool>,
    pub weights: Vec<u16>,
    pub protected: Vec<bool>,
    pub links: Vec<[u16; 2]>,
    pub serving: Vec<[u16; 2]>,
}

impl Lists {
    /// The network that the lists tell, or the number of the first fault that a reader of their
    /// picture would find. Columns of unequal length are no list, and judged with its length.
    fn picture(&self) -> Result<Picture, u8> {
        let header = self.header()?;
        if self.near.len() != self.states.len() {
            return Err(refusals::BLOCKS);
        }
        header.judge_blocks()?;
        if self.protected.len() != self.weights.len() {
            return Err(refusals::COUNTS);
        }
        header.judge_counts()?;
        let endpoints = self.weights.iter().zip(&self.protected);
        Ok(Picture {
            edition: header.edition,
            block_size: header.block_size as u8,
            near_limit: self.near_limit,
            slots: self.slots()?,
            endpoints: endpoints.map(|(&weight, &protected)| Endpoint { weight, protected }).collect(),
            links: rows(&self.links, |from, to| header.link(from, to))?,
            serving: rows(&self.serving, |location, endpoint| header.serving_link(location, endpoint))?,
        })
    }

    fn header(&self) -> Result<Header, u8> {
        Ok(Header {
            edition: Edition::of(self.edition)?,
            block_size: self.block_size as usize,
            slots: self.states.len(),
            near_limit: self.near_limit,
            endpoints: self.weights.len(),
            links: self.links.len(),
            serving: self.serving.len(),
        })
    }

    fn slots(&self) -> Result<Vec<Slot>, u8> {
        let slot = |(&state, &near): (&u8, &bool)| Ok(Slot { state: State::of(state)?, near });
        self.states.iter().zip(&self.near).map(slot).collect()
    }
}

fn rows<T>(links: &[[u16; 2]], link: impl Fn(u16, u16) -> Result<T, u8>) -> Result<Vec<T>, u8> {
    links.iter().map(|&[first, second]| link(first, second)).collect()
}

/// Writes the picture of the lists into the buffer's first bytes and gives its length, or tells the
/// first fault and leaves the buffer as it is.
pub fn write(lists: &Lists, buffer: &mut [u8]) -> Result<usize, u8> {
    pack_into(&lists.picture()?, buffer)
}

/// The lists that a picture tells, and its own edition.
pub fn lists_of(picture: &Picture) -> Lists {
    let serving = picture.serving.iter();
    Lists {
        edition: u32::from(picture.edition.number),
        block_size: u32::from(picture.block_size),
        near_limit: picture.near_limit,
        states: picture.slots.iter().map(|slot| slot.state as u8).collect(),
        near: picture.slots.iter().map(|slot| slot.near).collect(),
        weights: picture.endpoints.iter().map(|endpoint| endpoint.weight).collect(),
        protected: picture.endpoints.iter().map(|endpoint| endpoint.protected).collect(),
        links: picture.links.iter().map(|&(from, to)| [from, to]).collect(),
        serving: serving.map(|&(location, endpoint)| [location, u16::from(endpoint)]).collect(),
    }
}
