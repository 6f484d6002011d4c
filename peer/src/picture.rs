//! The picture of one network: its layout in bytes, read and packed.

use std::ops::{Range, RangeInclusive};

use crate::bits::{BitReader, BitWriter};
use crate::edition::{Edition, BLOCK_SIZE_WIDTH, COUNT_WIDTH, EDITION_WIDTH, ENDPOINT_WIDTH, FIRST};
use crate::edition::{MAX_BLOCKS, MAX_BLOCK_SIZE, MAX_ENDPOINTS, MAX_LINKS};
use crate::refusals;

#[derive(Clone, Copy, Debug, PartialEq, Eq)]
pub enum State {
    Held,
    Recoverable,
    Freed,
}

impl State {
    pub fn of(number: u8) -> Result<State, u8> {
        match number {
            0 => Ok(State::Held),
            1 => Ok(State::Recoverable),
            2 => Ok(State::Freed),
            _ => Err(refusals::STATE),
        }
    }
}

#[derive(Clone, Copy, Debug, PartialEq, Eq)]
pub struct Slot {
    pub state: State,
    pub near: bool,
}

#[derive(Clone, Copy, Debug, PartialEq, Eq)]
pub struct Endpoint {
    pub weight: u16,
    pub protected: bool,
}

/// A network. Location 0 is the origin, location k is `slots[k - 1]`; endpoint k is
/// `endpoints[k - 1]`. Links are (from, to), serving links are (location, endpoint).
#[derive(Clone, Debug, PartialEq, Eq)]
pub struct Picture {
    pub edition: Edition,
    pub block_size: u8,
    pub near_limit: u16,
    pub slots: Vec<Slot>,
    pub endpoints: Vec<Endpoint>,
    pub links: Vec<(u16, u16)>,
    pub serving: Vec<(u16, u8)>,
}

impl Picture {
    pub fn block_count(&self) -> usize {
        self.slots.len() / usize::from(self.block_size)
    }

    /// The locations of a block that is below the block count.
    pub fn block_locations(&self, block: usize) -> Range<usize> {
        let size = usize::from(self.block_size);
        block * size + 1..block * size + size + 1
    }

    /// The locations of the block that a caller names, whatever number that is.
    pub fn named_block(&self, block: u32) -> Result<Range<usize>, u8> {
        match usize::try_from(block) {
            Ok(block) if block < self.block_count() => Ok(self.block_locations(block)),
            _ => Err(refusals::NO_BLOCK),
        }
    }

    /// The same with each recoverable slot held, whatever the near limit: its chains are those of held or
    /// recoverable slots, of which request C-19 tells.
    pub fn all_reloaded(&self) -> Picture {
        let mut reloaded = self.clone();
        for slot in &mut reloaded.slots {
            if slot.state == State::Recoverable {
                slot.state = State::Held;
            }
        }
        reloaded
    }

    pub fn held_near(&self) -> usize {
        self.slots.iter().filter(|slot| slot.is_held_near()).count()
    }

    /// The blocks with at least one held near slot, rising.
    pub fn candidates(&self) -> Vec<u8> {
        self.slots
            .chunks(usize::from(self.block_size))
            .zip(0..)
            .filter(|(slots, _)| slots.iter().any(Slot::is_held_near))
            .map(|(_, block)| block)
            .collect()
    }
}

impl Slot {
    pub fn is_held_near(&self) -> bool {
        self.state == State::Held && self.near
    }
}

/// What a header says of sizes, before it is judged.
pub(crate) struct Header {
    pub edition: Edition,
    pub block_size: usize,
    pub slots: usize,
    pub near_limit: u16,
    pub endpoints: usize,
    pub links: usize,
    pub serving: usize,
}

impl Header {
    /// The fields behind the edition's, of a header that is there.
    fn read(edition: Edition, fields: &mut BitReader) -> Header {
        Header {
            edition,
            block_size: fields.field(BLOCK_SIZE_WIDTH) as usize,
            slots: fields.field(edition.location_width) as usize,
            near_limit: fields.field(edition.location_width) as u16,
            endpoints: fields.field(ENDPOINT_WIDTH) as usize,
            links: fields.field(COUNT_WIDTH) as usize,
            serving: fields.field(COUNT_WIDTH) as usize,
        }
    }

    /// A near limit that is read always fits; one that is to be written need not.
    pub fn judge_blocks(&self) -> Result<(), u8> {
        let fits = (1..=MAX_BLOCK_SIZE).contains(&self.block_size)
            && (1..=self.edition.max_slots).contains(&self.slots)
            && self.slots % self.block_size == 0
            && self.slots / self.block_size <= MAX_BLOCKS
            && self.near_limit <= self.edition.max_near_limit();
        fits.then_some(()).ok_or(refusals::BLOCKS)
    }

    pub fn judge_counts(&self) -> Result<(), u8> {
        let fits =
            self.endpoints <= MAX_ENDPOINTS && self.links <= MAX_LINKS && self.serving <= MAX_LINKS;
        fits.then_some(()).ok_or(refusals::COUNTS)
    }

    /// A link whose ends are both there.
    pub fn link(&self, from: u16, to: u16) -> Result<(u16, u16), u8> {
        let from = named(from, 0..=self.slots, refusals::LINK)?;
        let to = named(to, 0..=self.slots, refusals::LINK)?;
        Ok((from, to))
    }

    /// A serving link whose location and endpoint are there, judged in this order.
    pub fn serving_link(&self, location: u16, endpoint: u16) -> Result<(u16, u8), u8> {
        let location = named(location, 0..=self.slots, refusals::SERVICE_LOCATION)?;
        let endpoint = named(endpoint, 1..=self.endpoints, refusals::SERVICE_ENDPOINT)?;
        // An endpoint that is there has a number of eight bits.
        Ok((location, endpoint as u8))
    }

    fn picture_bytes(&self) -> usize {
        self.edition.picture_bytes(self.slots, self.endpoints, self.links, self.serving)
    }
}

fn named(number: u16, there: RangeInclusive<usize>, refusal: u8) -> Result<u16, u8> {
    there.contains(&usize::from(number)).then_some(number).ok_or(refusal)
}

/// Reads a picture, or tells its first fault.
pub fn read(bytes: &[u8]) -> Result<Picture, u8> {
    let mut fields = BitReader::new(bytes);
    let header = read_header(&mut fields, bytes.len())?;
    header.judge_blocks()?;
    header.judge_counts()?;
    let length = header.picture_bytes();
    if bytes.len() < length {
        return Err(refusals::SHORT);
    }
    let picture = read_body(&mut fields, &header)?;
    let fill_width = fields.fill_width();
    if fields.field(fill_width) != 0 || bytes.len() > length {
        return Err(refusals::FILL);
    }
    Ok(picture)
}

/// Bytes that are too few for the shorter header have no edition; then the edition says how many its
/// own header takes.
fn read_header(fields: &mut BitReader, length: usize) -> Result<Header, u8> {
    if length < FIRST.header_bytes() {
        return Err(refusals::SHORT);
    }
    let edition = Edition::of(fields.field(EDITION_WIDTH))?;
    if length < edition.header_bytes() {
        return Err(refusals::SHORT);
    }
    Ok(Header::read(edition, fields))
}

fn read_body(fields: &mut BitReader, header: &Header) -> Result<Picture, u8> {
    let slots = (0..header.slots).map(|_| read_slot(fields)).collect::<Result<_, u8>>()?;
    let endpoints = (0..header.endpoints).map(|_| read_endpoint(fields)).collect();
    let location = header.edition.location_width;
    let links = read_links(fields, header.links, [location; 2], |from, to| header.link(from, to))?;
    let serving =
        read_links(fields, header.serving, [location, ENDPOINT_WIDTH], |location, endpoint| {
            header.serving_link(location, endpoint)
        })?;
    Ok(Picture {
        edition: header.edition,
        block_size: header.block_size as u8,
        near_limit: header.near_limit,
        slots,
        endpoints,
        links,
        serving,
    })
}

fn read_slot(fields: &mut BitReader) -> Result<Slot, u8> {
    Ok(Slot { state: State::of(fields.byte(2))?, near: fields.field(1) == 1 })
}

fn read_endpoint(fields: &mut BitReader) -> Endpoint {
    Endpoint { weight: fields.field(16) as u16, protected: fields.field(1) == 1 }
}

/// Links and serving links are two numbers each; their widths and what they may name differ.
fn read_links<T>(
    fields: &mut BitReader,
    count: usize,
    widths: [usize; 2],
    link: impl Fn(u16, u16) -> Result<T, u8>,
) -> Result<Vec<T>, u8> {
    let mut links = Vec::with_capacity(count);
    for _ in 0..count {
        let [first, second] = widths.map(|width| fields.field(width) as u16);
        links.push(link(first, second)?);
    }
    Ok(links)
}

/// Packs a picture that keeps the limits.
pub fn pack(picture: &Picture) -> Vec<u8> {
    let location_width = picture.edition.location_width;
    let mut fields = BitWriter::new();
    fields.field(EDITION_WIDTH, u32::from(picture.edition.number));
    fields.field(BLOCK_SIZE_WIDTH, u32::from(picture.block_size));
    fields.field(location_width, picture.slots.len() as u32);
    fields.field(location_width, u32::from(picture.near_limit));
    fields.field(ENDPOINT_WIDTH, picture.endpoints.len() as u32);
    fields.field(COUNT_WIDTH, picture.links.len() as u32);
    fields.field(COUNT_WIDTH, picture.serving.len() as u32);
    for slot in &picture.slots {
        fields.field(2, slot.state as u32);
        fields.field(1, u32::from(slot.near));
    }
    for endpoint in &picture.endpoints {
        fields.field(16, u32::from(endpoint.weight));
        fields.field(1, u32::from(endpoint.protected));
    }
    for (from, to) in &picture.links {
        fields.field(location_width, u32::from(*from));
        fields.field(location_width, u32::from(*to));
    }
    for (location, endpoint) in &picture.serving {
        fields.field(location_width, u32::from(*location));
        fields.field(ENDPOINT_WIDTH, u32::from(*endpoint));
    }
    fields.into_bytes()
}

/// Packs a picture that keeps the limits into the buffer's first bytes and gives its length, or leaves a
/// buffer that is shorter as it is.
pub fn pack_into(picture: &Picture, buffer: &mut [u8]) -> Result<usize, u8> {
    let bytes = pack(picture);
    let room = buffer.get_mut(..bytes.len()).ok_or(refusals::BUFFER)?;
    room.copy_from_slice(&bytes);
    Ok(bytes.len())
}
