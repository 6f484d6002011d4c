//! Pictures field by field, so that any field can be wrong while the others are as they should be.

use peer::bits::BitWriter;
use peer::edition::{BLOCK_SIZE_WIDTH, COUNT_WIDTH, EDITION_WIDTH, ENDPOINT_WIDTH, FIRST};
use peer::picture::Picture;
use peer::random::Random;
use peer::Edition;

/// What the header says; the body is built to it, or not.
#[derive(Clone, Copy)]
pub struct Header {
    pub edition: u32,
    pub block_size: u32,
    pub slots: u32,
    pub near_limit: u32,
    pub endpoints: u32,
    pub links: u32,
    pub serving: u32,
}

impl Header {
    /// Small sizes that are right in each edition.
    pub fn plain(edition: Edition) -> Header {
        Header {
            edition: edition.number.into(),
            block_size: 2,
            slots: 8,
            near_limit: 3,
            endpoints: 3,
            links: 12,
            serving: 5,
        }
    }
}

#[derive(Clone)]
pub struct Raw {
    /// By which the fields are packed, whatever edition the header says.
    pub layout: Edition,
    pub header: Header,
    pub slots: Vec<(u32, u32)>,
    pub endpoints: Vec<(u32, u32)>,
    pub links: Vec<(u16, u16)>,
    pub serving: Vec<(u16, u8)>,
    /// The bits that fill up the last byte.
    pub fill: u8,
    pub tail: Vec<u8>,
}

impl Raw {
    /// The fields of a picture that keeps the layout.
    pub fn of(picture: &Picture) -> Raw {
        let header = Header {
            edition: picture.edition.number.into(),
            block_size: picture.block_size.into(),
            slots: picture.slots.len() as u32,
            near_limit: picture.near_limit.into(),
            endpoints: picture.endpoints.len() as u32,
            links: picture.links.len() as u32,
            serving: picture.serving.len() as u32,
        };
        Raw {
            slots: picture.slots.iter().map(|slot| (slot.state as u32, slot.near.into())).collect(),
            endpoints: picture
                .endpoints
                .iter()
                .map(|endpoint| (endpoint.weight.into(), endpoint.protected.into()))
                .collect(),
            links: picture.links.clone(),
            serving: picture.serving.clone(),
            ..Raw::bare(header)
        }
    }

    /// The header alone, in the layout of its edition or, where there is no such edition, the first's.
    pub fn bare(header: Header) -> Raw {
        Raw {
            layout: Edition::of(header.edition).unwrap_or(FIRST),
            header,
            slots: Vec::new(),
            endpoints: Vec::new(),
            links: Vec::new(),
            serving: Vec::new(),
            fill: 0,
            tail: Vec::new(),
        }
    }

    /// A random body of just the length that this header says, right or not.
    pub fn to(header: Header, random: &mut Random) -> Raw {
        let location = |random: &mut Random| random.between(0, header.slots as usize) as u16;
        let endpoint = |random: &mut Random| random.between(1, (header.endpoints as usize).max(1)) as u8;
        Raw {
            slots: (0..header.slots)
                .map(|_| (random.below(9) as u32 / 7, random.below(4).min(1) as u32))
                .collect(),
            endpoints: (0..header.endpoints)
                .map(|_| (random.below(65536) as u32, random.once_in(40).into()))
                .collect(),
            links: (0..header.links).map(|_| (location(random), location(random))).collect(),
            serving: (0..header.serving).map(|_| (location(random), endpoint(random))).collect(),
            ..Raw::bare(header)
        }
    }

    pub fn bytes(&self) -> Vec<u8> {
        let mut fields = BitWriter::new();
        self.push_header(&mut fields);
        self.push_body(&mut fields);
        let mut bytes = fields.into_bytes();
        let width = (8 - self.body_bits() % 8) % 8;
        let fill_mask = ((1u32 << width) - 1) as u8;
        if let Some(last) = bytes.last_mut() {
            *last |= self.fill & fill_mask;
        }
        bytes.extend(&self.tail);
        bytes
    }

    fn push_header(&self, fields: &mut BitWriter) {
        let header = &self.header;
        fields.field(EDITION_WIDTH, header.edition);
        fields.field(BLOCK_SIZE_WIDTH, header.block_size);
        fields.field(self.layout.location_width, header.slots);
        fields.field(self.layout.location_width, header.near_limit);
        fields.field(ENDPOINT_WIDTH, header.endpoints);
        fields.field(COUNT_WIDTH, header.links);
        fields.field(COUNT_WIDTH, header.serving);
    }

    fn push_body(&self, fields: &mut BitWriter) {
        for (state, near) in &self.slots {
            fields.field(2, *state);
            fields.field(1, *near);
        }
        for (weight, protected) in &self.endpoints {
            fields.field(16, *weight);
            fields.field(1, *protected);
        }
        for (from, to) in &self.links {
            fields.field(self.layout.location_width, (*from).into());
            fields.field(self.layout.location_width, (*to).into());
        }
        for (location, endpoint) in &self.serving {
            fields.field(self.layout.location_width, (*location).into());
            fields.field(ENDPOINT_WIDTH, (*endpoint).into());
        }
    }

    fn body_bits(&self) -> usize {
        let (links, serving) = (self.links.len(), self.serving.len());
        self.layout.body_bits(self.slots.len(), self.endpoints.len(), links, serving)
    }

    /// Some faults of any kinds at once, so that their order shows.
    pub fn damage(&mut self, random: &mut Random) {
        // Serving links twice, as the order of two of them shows too.
        let kinds =
            [damage_header, damage_state, damage_link, damage_serving, damage_serving, damage_end];
        for kind in kinds {
            if random.once_in(3) {
                kind(self, random);
            }
        }
    }

    /// A number above the last slot's that a location's field has room for.
    fn no_location(&self, random: &mut Random) -> u16 {
        let most = (1 << self.layout.location_width) - 1;
        above(random, self.slots.len(), most)
    }
}

fn damage_header(raw: &mut Raw, random: &mut Random) {
    let locations = 1 << raw.layout.location_width;
    let header = &mut raw.header;
    match random.below(8) {
        0 => header.edition = random.below(16) as u32,
        // The other edition over this one's layout, most of the time.
        1 => header.edition = random.between(1, 2) as u32,
        2 => header.block_size = random.below(16) as u32,
        3 => header.slots = random.below(locations) as u32,
        4 => header.slots = random.below(locations.min(340)) as u32,
        5 => header.endpoints = random.below(256) as u32,
        6 => header.links = random.below(4096) as u32,
        _ => header.serving = random.below(4096) as u32,
    }
}

fn damage_state(raw: &mut Raw, random: &mut Random) {
    let slot = random.below(raw.slots.len());
    raw.slots[slot].0 = 3;
}

fn damage_link(raw: &mut Raw, random: &mut Random) {
    if raw.links.is_empty() {
        return;
    }
    let link = random.below(raw.links.len());
    let above = raw.no_location(random);
    match random.below(2) {
        0 => raw.links[link].0 = above,
        _ => raw.links[link].1 = above,
    }
}

fn damage_serving(raw: &mut Raw, random: &mut Random) {
    if raw.serving.is_empty() {
        return;
    }
    let link = random.below(raw.serving.len());
    match random.below(3) {
        0 => raw.serving[link].0 = raw.no_location(random),
        1 => raw.serving[link].1 = above(random, raw.endpoints.len(), 255) as u8,
        _ => raw.serving[link].1 = 0,
    }
}

fn damage_end(raw: &mut Raw, random: &mut Random) {
    match random.below(3) {
        0 => raw.fill = random.byte(),
        1 => raw.tail = vec![0],
        _ => raw.tail = (0..random.between(1, 20)).map(|_| random.byte()).collect(),
    }
}

/// A number above `limit`, often the next one, and at most `most`.
fn above(random: &mut Random, limit: usize, most: usize) -> u16 {
    match random.below(3) {
        0 => random.between(limit + 1, most) as u16,
        1 => most as u16,
        _ => limit as u16 + 1,
    }
}
