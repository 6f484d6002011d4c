//! The other implementation's archive behind safe functions, for the feature `archive` only. Each answers what the C call answers:
//! 0 or a length, or minus the number of the refusal.

// The one module of the library that calls foreign code.
#![allow(unsafe_code)]

use crate::generate::Asked;
use crate::lists::Lists;

mod calls {
    extern "C" {
        pub fn blockplan_choose(
            picture: *const u8,
            picture_len: usize,
            evidence: *mut u8,
            evidence_len: usize,
        ) -> i32;
        pub fn blockplan_check(
            picture: *const u8,
            picture_len: usize,
            evidence: *const u8,
            evidence_len: usize,
        ) -> i32;
        pub fn blockplan_evict(picture: *mut u8, picture_len: usize, block: u32) -> i32;
        pub fn blockplan_reload(picture: *mut u8, picture_len: usize, block: u32) -> i32;
        pub fn blockplan_free(picture: *mut u8, picture_len: usize, block: u32) -> i32;
        pub fn blockplan_write(
            edition: u32,
            block_size: u32,
            near_limit: u16,
            states: *const u8,
            state_count: usize,
            is_near: *const bool,
            near_count: usize,
            weights: *const u16,
            weight_count: usize,
            is_protected: *const bool,
            protected_count: usize,
            links: *const [u16; 2],
            link_count: usize,
            service_links: *const [u16; 2],
            service_link_count: usize,
            picture: *mut u8,
            picture_len: usize,
        ) -> i32;
        pub fn blockplan_generate(
            seed: u64,
            block_size: u32,
            blocks: u32,
            endpoints: u32,
            links: u32,
            service_links: u32,
            picture: *mut u8,
            picture_len: usize,
        ) -> i32;
        pub fn blockplan_price(
            picture: *const u8,
            picture_len: usize,
            records: *const u8,
            records_len: usize,
            counters: *mut u32,
            counter_count: usize,
        ) -> i32;
    }
}

// In every function below: pointer and length come from one slice or column, also where it is empty,
// and two of which one is mutable do not overlap; a column's pointer is aligned to its rows, and a bool
// is 0 or 1. That is all the interface asks for.

pub fn choose(picture: &[u8], evidence: &mut [u8]) -> i32 {
    unsafe {
        calls::blockplan_choose(picture.as_ptr(), picture.len(), evidence.as_mut_ptr(), evidence.len())
    }
}

pub fn check(picture: &[u8], evidence: &[u8]) -> i32 {
    unsafe { calls::blockplan_check(picture.as_ptr(), picture.len(), evidence.as_ptr(), evidence.len()) }
}

pub fn evict(picture: &mut [u8], block: u32) -> i32 {
    unsafe { calls::blockplan_evict(picture.as_mut_ptr(), picture.len(), block) }
}

pub fn reload(picture: &mut [u8], block: u32) -> i32 {
    unsafe { calls::blockplan_reload(picture.as_mut_ptr(), picture.len(), block) }
}

pub fn free(picture: &mut [u8], block: u32) -> i32 {
    unsafe { calls::blockplan_free(picture.as_mut_ptr(), picture.len(), block) }
}

pub fn write(lists: &Lists, picture: &mut [u8]) -> i32 {
    unsafe {
        calls::blockplan_write(
            lists.edition,
            lists.block_size,
            lists.near_limit,
            lists.states.as_ptr(),
            lists.states.len(),
            lists.near.as_ptr(),
            lists.near.len(),
            lists.weights.as_ptr(),
            lists.weights.len(),
            lists.protected.as_ptr(),
            lists.protected.len(),
            lists.links.as_ptr(),
            lists.links.len(),
            lists.serving.as_ptr(),
            lists.serving.len(),
            picture.as_mut_ptr(),
            picture.len(),
        )
    }
}

pub fn generate(seed: u64, asked: &Asked, picture: &mut [u8]) -> i32 {
    unsafe {
        calls::blockplan_generate(
            seed,
            asked.block_size,
            asked.blocks,
            asked.endpoints,
            asked.links,
            asked.serving,
            picture.as_mut_ptr(),
            picture.len(),
        )
    }
}

pub fn price(picture: &[u8], records: &[u8], counters: &mut [u32]) -> i32 {
    unsafe {
        calls::blockplan_price(
            picture.as_ptr(),
            picture.len(),
            records.as_ptr(),
            records.len(),
            counters.as_mut_ptr(),
            counters.len(),
        )
    }
}
