//! The two editions of the layout. What differs between them is numbers, and they stand here alone:
//! everything else reads, packs and judges by the edition that it is handed.

use crate::refusals;

pub const MAX_BLOCK_SIZE: usize = 15;
pub const MAX_BLOCKS: usize = 60;
pub const MAX_ENDPOINTS: usize = 200;
pub const MAX_LINKS: usize = 2000;

/// Bits of the fields that have one width in both editions.
pub const EDITION_WIDTH: usize = 4;
pub const BLOCK_SIZE_WIDTH: usize = 4;
pub const ENDPOINT_WIDTH: usize = 8;
pub const COUNT_WIDTH: usize = 12;

const SLOT_WIDTH: usize = 2 + 1;
const ENDPOINT_ROW_WIDTH: usize = 16 + 1;

/// Bytes of evidence before the first forest.
pub const HEAD_BYTES: usize = 9;
/// Bytes of a section before its forest.
pub const SECTION_HEAD_BYTES: usize = 5;

#[derive(Clone, Copy, Debug, PartialEq, Eq)]
pub struct Edition {
    /// What pictures and evidence say in their first bits.
    pub number: u8,
    /// Bits of a location in links and serving links and, as they go as far, of the number of slots
    /// and the near limit in the header and of parents and depths in evidence.
    pub location_width: usize,
    pub max_slots: usize,
}

pub const FIRST: Edition = Edition { number: 1, location_width: 8, max_slots: 240 };
pub const SECOND: Edition = Edition { number: 2, location_width: 12, max_slots: 320 };
pub const EDITIONS: [Edition; 2] = [FIRST, SECOND];

// The second edition's limits are the larger ones, so they are those of all pictures and evidence.
pub const MAX_SLOTS: usize = SECOND.max_slots;
pub const MAX_PICTURE_BYTES: usize = SECOND.max_picture_bytes();
pub const MAX_EVIDENCE_BYTES: usize = SECOND.max_evidence_bytes();

impl Edition {
    /// The edition of this number, whatever number that is.
    pub fn of(number: u32) -> Result<Edition, u8> {
        let named = |edition: &Edition| u32::from(edition.number) == number;
        EDITIONS.into_iter().find(named).ok_or(refusals::EDITION)
    }

    pub const fn max_near_limit(&self) -> u16 {
        (1 << self.location_width) - 1
    }

    /// As many blocks of this size as there may be.
    pub const fn most_blocks(&self, block_size: usize) -> usize {
        let blocks = self.max_slots / block_size;
        if blocks < MAX_BLOCKS {
            blocks
        } else {
            MAX_BLOCKS
        }
    }

    pub const fn header_bytes(&self) -> usize {
        let sizes = 2 * self.location_width + ENDPOINT_WIDTH + 2 * COUNT_WIDTH;
        (EDITION_WIDTH + BLOCK_SIZE_WIDTH + sizes) / 8
    }

    /// The bits between header and fill.
    pub const fn body_bits(
        &self,
        slots: usize,
        endpoints: usize,
        links: usize,
        serving: usize,
    ) -> usize {
        SLOT_WIDTH * slots
            + ENDPOINT_ROW_WIDTH * endpoints
            + 2 * self.location_width * links
            + (self.location_width + ENDPOINT_WIDTH) * serving
    }

    pub const fn picture_bytes(
        &self,
        slots: usize,
        endpoints: usize,
        links: usize,
        serving: usize,
    ) -> usize {
        self.header_bytes() + self.body_bits(slots, endpoints, links, serving).div_ceil(8)
    }

    pub const fn max_picture_bytes(&self) -> usize {
        self.picture_bytes(self.max_slots, MAX_ENDPOINTS, MAX_LINKS, MAX_LINKS)
    }

    /// The bytes of a slot's parent and depth, which together are whole bytes.
    pub const fn entry_bytes(&self) -> usize {
        2 * self.location_width / 8
    }

    pub const fn forest_bytes(&self, slots: usize) -> usize {
        self.entry_bytes() * slots
    }

    pub const fn section_bytes(&self, slots: usize) -> usize {
        SECTION_HEAD_BYTES + self.forest_bytes(slots)
    }

    pub const fn evidence_bytes(&self, slots: usize, candidates: usize) -> usize {
        HEAD_BYTES + self.forest_bytes(slots) + candidates * self.section_bytes(slots)
    }

    /// Of the block size in which slots and candidates together make the longest evidence.
    pub const fn max_evidence_bytes(&self) -> usize {
        let mut most = 0;
        let mut block_size = 1;
        while block_size <= MAX_BLOCK_SIZE {
            let blocks = self.most_blocks(block_size);
            let bytes = self.evidence_bytes(block_size * blocks, blocks);
            if bytes > most {
                most = bytes;
            }
            block_size += 1;
        }
        most
    }
}
