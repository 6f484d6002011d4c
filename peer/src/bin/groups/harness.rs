//! One call at a time on both implementations, each on buffers of its own between guard bytes.

use std::fmt::UpperHex;
use std::io::{stdout, Write};
use std::ops::Range;
use std::process::exit;

use super::watch::{hexadecimal, install, print_bytes, watched, Call};
use peer::calls::{self, broken_promise, Act};
use peer::price::broken_price;
use peer::{archive, Asked, Lists};

/// Guard items before and behind each buffer.
const GUARD: usize = 256;

type ArchiveAct = fn(&mut [u8], u32) -> i32;

/// An act's name, and the archive's call of it.
fn in_archive(act: Act) -> (&'static str, ArchiveAct) {
    match act {
        Act::Evict => ("evict", archive::evict),
        Act::Reload => ("reload", archive::reload),
        Act::Free => ("free", archive::free),
    }
}

/// What buffers consist of: bytes or, where they are lists of numbers, those.
trait Item: Copy + From<u8> + PartialEq + UpperHex {}

impl Item for u8 {}
impl Item for u32 {}

/// A buffer inside a larger one whose other items must stay.
struct Guarded<T> {
    items: Vec<T>,
    content: Range<usize>,
}

impl<T: Item> Guarded<T> {
    /// `shift` moves the buffer's start, so that no alignment of bytes is always met.
    fn new(content: &[T], shift: usize) -> Guarded<T> {
        let start = GUARD + shift;
        let guard = |place: usize| T::from(0xC3 ^ (place as u8).wrapping_mul(29));
        let mut items: Vec<T> = (0..start).map(guard).collect();
        items.extend_from_slice(content);
        items.extend((0..GUARD).map(guard));
        Guarded { items, content: start..start + content.len() }
    }

    fn get(&self) -> &[T] {
        &self.items[self.content.clone()]
    }

    fn get_mut(&mut self) -> &mut [T] {
        &mut self.items[self.content.clone()]
    }
}

/// The same buffer twice: one for the peer, one for the archive.
struct Pair<T> {
    name: &'static str,
    peer: Guarded<T>,
    archive: Guarded<T>,
}

impl<T: Item> Pair<T> {
    fn new(name: &'static str, content: &[T], shift: usize) -> Pair<T> {
        Pair { name, peer: Guarded::new(content, shift), archive: Guarded::new(content, shift) }
    }
}

/// A pair of any items, after the calls.
trait Lent {
    fn is_equal(&self) -> bool;
    fn print_difference(&self);
}

impl<T: Item> Lent for Pair<T> {
    /// The whole buffers, guards included.
    fn is_equal(&self) -> bool {
        self.peer.items == self.archive.items
    }

    fn print_difference(&self) {
        let (peer, archive) = (&self.peer.items, &self.archive.items);
        let places: Vec<usize> = (0..peer.len()).filter(|&at| peer[at] != archive[at]).collect();
        let first = places[0]..places[0] + 1;
        // Places below 0 or from the length on are guard items.
        let place = first.start as i64 - self.peer.content.start as i64;
        println!(
            "{} differs in {} places, first at {place} of {}: peer {}, archive {}",
            self.name,
            places.len(),
            self.peer.content.len(),
            hexadecimal(&peer[first.clone()]),
            hexadecimal(&archive[first]),
        );
        println!("{} after the peer: {}", self.name, hexadecimal(self.peer.get()));
        println!("{} after the archive: {}", self.name, hexadecimal(self.archive.get()));
    }
}

/// The count of what was compared, and the calls themselves.
pub struct Comparison {
    group: &'static str,
    in_group: u64,
    before: u64,
}

impl Comparison {
    pub fn new() -> Comparison {
        install();
        Comparison { group: "", in_group: 0, before: 0 }
    }

    /// Names the group first, so that a call that never comes back has a place.
    pub fn start(&mut self, group: &'static str) {
        self.group = group;
        print!("{group:<32}");
        stdout().flush().expect("standard output takes the line");
    }

    pub fn finish(&mut self) {
        println!("{:>10} compared", self.in_group);
        self.before += self.in_group;
        self.in_group = 0;
    }

    pub fn total(&self) -> u64 {
        self.before + self.in_group
    }

    fn shift(&self) -> usize {
        self.in_group as usize % 16
    }

    pub fn choose(&mut self, picture: &[u8], room: usize) -> i32 {
        let lent: Vec<u8> = (0..room).map(|place| 0x5A ^ (place as u8).wrapping_mul(7)).collect();
        let mut pictures = Pair::new("picture", picture, self.shift());
        let mut buffers = Pair::new("evidence", &lent, self.shift() / 2);
        let peer = length_answer(peer::choose(pictures.peer.get(), buffers.peer.get_mut()));
        let inputs = vec![("picture", picture.to_vec())];
        let call = Call { name: "choose", inputs, number: ("buffer length", room), peer };
        let archive =
            watched(&call, || archive::choose(pictures.archive.get_mut(), buffers.archive.get_mut()));
        self.judge(&call, archive, &[&pictures, &buffers])
    }

    pub fn check(&mut self, picture: &[u8], evidence: &[u8]) -> i32 {
        let mut pictures = Pair::new("picture", picture, self.shift());
        let mut evidences = Pair::new("evidence", evidence, self.shift() / 2);
        let peer = as_answer(peer::check(pictures.peer.get(), evidences.peer.get()));
        let inputs = vec![("picture", picture.to_vec()), ("evidence", evidence.to_vec())];
        let call = Call { name: "check", inputs, number: ("evidence length", evidence.len()), peer };
        let archive =
            watched(&call, || archive::check(pictures.archive.get_mut(), evidences.archive.get_mut()));
        self.judge(&call, archive, &[&pictures, &evidences])
    }

    /// Leaves the picture as the act does.
    pub fn act(&mut self, made: &calls::Call, picture: &mut [u8]) -> i32 {
        let (name, act) = in_archive(made.act);
        let mut pictures = Pair::new("picture", picture, self.shift());
        let peer = as_answer(made.make(pictures.peer.get_mut()));
        let inputs = vec![("picture", picture.to_vec())];
        let call = Call { name, inputs, number: ("block", made.block as usize), peer };
        let archive = watched(&call, || act(pictures.archive.get_mut(), made.block));
        picture.copy_from_slice(pictures.peer.get());
        self.judge(&call, archive, &[&pictures])
    }

    /// Leaves the buffer as the call does.
    pub fn write(&mut self, lists: &Lists, buffer: &mut [u8]) -> i32 {
        let mut buffers = Pair::new("picture", buffer, self.shift());
        let peer = length_answer(peer::write(lists, buffers.peer.get_mut()));
        let inputs = columns(lists);
        let call = Call { name: "write", inputs, number: ("buffer length", buffer.len()), peer };
        let archive = watched(&call, || archive::write(lists, buffers.archive.get_mut()));
        buffer.copy_from_slice(buffers.peer.get());
        if columns(lists) != call.inputs {
            self.print_place(&call);
            println!("the archive writes into a list");
            exit(1);
        }
        self.judge(&call, archive, &[&buffers])
    }

    /// Leaves the buffer as the call does.
    pub fn generate(&mut self, seed: u64, asked: &Asked, buffer: &mut [u8]) -> i32 {
        let mut buffers = Pair::new("picture", buffer, self.shift());
        let peer = length_answer(peer::generate(seed, asked, buffers.peer.get_mut()));
        let inputs = sizes(seed, asked);
        let call = Call { name: "generate", inputs, number: ("buffer length", buffer.len()), peer };
        let archive = watched(&call, || archive::generate(seed, asked, buffers.archive.get_mut()));
        buffer.copy_from_slice(buffers.peer.get());
        self.judge(&call, archive, &[&buffers])
    }

    /// Leaves the counters as the call does.
    pub fn price(&mut self, picture: &[u8], records: &[u8], counters: &mut [u32]) -> i32 {
        let mut pictures = Pair::new("picture", picture, self.shift());
        let mut traffic = Pair::new("records", records, self.shift() / 2);
        let mut buffers = Pair::new("counters", counters, self.shift() / 4);
        let peer =
            as_answer(peer::price_into(pictures.peer.get(), traffic.peer.get(), buffers.peer.get_mut()));
        let inputs = vec![("picture", picture.to_vec()), ("records", records.to_vec())];
        let call = Call { name: "price", inputs, number: ("counters", counters.len()), peer };
        let archive = watched(&call, || {
            archive::price(
                pictures.archive.get_mut(),
                traffic.archive.get_mut(),
                buffers.archive.get_mut(),
            )
        });
        counters.copy_from_slice(buffers.peer.get());
        self.judge(&call, archive, &[&pictures, &traffic, &buffers])
    }

    /// The two agree, but on an answer that the input is not built for.
    pub fn expect(&self, what: &str, answer: i32, due: i32) {
        if answer != due {
            println!("\n{}: {what} answers {answer} in both, {due} was due", self.group);
            exit(1);
        }
    }

    /// The two agree, but on bytes that do not keep what every list of calls keeps.
    pub fn expect_kept(&self, earlier: &[u8], calls: &[calls::Call], later: &[u8]) {
        let Some(broken) = broken_promise(earlier, later) else { return };
        self.print_broken(&broken);
        for made in calls {
            println!("call: {}, block {}", in_archive(made.act).0, made.block);
        }
        print_bytes("before", earlier);
        print_bytes("after", later);
        exit(1);
    }

    /// The two agree, but on counters that are not what the request says.
    pub fn expect_priced(&self, picture: &[u8], records: &[u8], counters: &[u32]) {
        let Some(broken) = broken_price(picture, records, counters) else { return };
        self.print_broken(&broken);
        print_bytes("picture", picture);
        print_bytes("records", records);
        println!("counters: {counters:?}");
        exit(1);
    }

    fn print_broken(&self, broken: &str) {
        println!("\npromise broken in group \"{}\", input {}: {broken}", self.group, self.total());
    }

    /// Ends the run at a difference; otherwise gives the answer of both.
    fn judge(&mut self, call: &Call, archive: i32, buffers: &[&dyn Lent]) -> i32 {
        self.in_group += 1;
        if call.peer == archive && buffers.iter().all(|pair| pair.is_equal()) {
            return archive;
        }
        self.print_place(call);
        println!("peer answers {}, archive answers {archive}", call.peer);
        for pair in buffers.iter().filter(|pair| !pair.is_equal()) {
            pair.print_difference();
        }
        exit(1);
    }

    fn print_place(&self, call: &Call) {
        println!("\ndifference in group \"{}\", input {}", self.group, self.total());
        call.print();
    }
}

/// The lists as bytes, to be printed and to be kept; numbers of 16 bits have the high byte first.
fn columns(lists: &Lists) -> Vec<(&'static str, Vec<u8>)> {
    let pairs = |links: &[[u16; 2]]| links.iter().flatten().flat_map(|end| end.to_be_bytes()).collect();
    let marks = |marks: &[bool]| marks.iter().map(|mark| u8::from(*mark)).collect();
    vec![
        ("edition", lists.edition.to_be_bytes().to_vec()),
        ("block size", lists.block_size.to_be_bytes().to_vec()),
        ("near limit", lists.near_limit.to_be_bytes().to_vec()),
        ("states", lists.states.clone()),
        ("near", marks(&lists.near)),
        ("weights", lists.weights.iter().flat_map(|weight| weight.to_be_bytes()).collect()),
        ("protected", marks(&lists.protected)),
        ("links", pairs(&lists.links)),
        ("serving links", pairs(&lists.serving)),
    ]
}

/// What generate is handed, to be printed, with the high byte first.
fn sizes(seed: u64, asked: &Asked) -> Vec<(&'static str, Vec<u8>)> {
    vec![
        ("seed", seed.to_be_bytes().to_vec()),
        ("block size", asked.block_size.to_be_bytes().to_vec()),
        ("blocks", asked.blocks.to_be_bytes().to_vec()),
        ("endpoints", asked.endpoints.to_be_bytes().to_vec()),
        ("links", asked.links.to_be_bytes().to_vec()),
        ("serving links", asked.serving.to_be_bytes().to_vec()),
    ]
}

fn length_answer(result: Result<usize, u8>) -> i32 {
    match result {
        Ok(length) => length as i32,
        Err(number) => -i32::from(number),
    }
}

fn as_answer(result: Result<(), u8>) -> i32 {
    length_answer(result.map(|()| 0))
}
