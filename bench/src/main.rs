//! Times of the archive and of the peer in one run, records priced in a second, the growth of times, their
//! spread over a thousand generated networks, and the archive's peak stack, for pictures of both editions.
//!
//! `bench [REPETITIONS]`: of how many measurements each time is the median.
//! `bench load`: the generated networks alone.
//! `bench stack`: the peak stack alone; ends with status 1 where it is over the header's limit.

mod load;
mod price;
mod stack;
mod times;

use std::env;
use std::hint::black_box;
use std::process::exit;
use std::time::Duration;

use peer::archive;
use peer::edition::{FIRST, MAX_EVIDENCE_BYTES, MAX_PICTURE_BYTES, SECOND};
use peer::networks::{dense_held, hold_all, long_chain, Size};
use peer::picture::{Picture, State};
use peer::random::Random;
use peer::{lists_of, pack, samples, Asked, Lists};

use load::print_load;
use price::print_prices;
use times::{Both, Effort, Times};

const DEFAULT_REPETITIONS: usize = 15;
const LEAST_TIME: Duration = Duration::from_millis(2);
const SEED: u64 = 7;
/// The header for C, which promises a limit of stack.
const HEADER: &str = include_str!("../../include/blockplan.h");

/// A picture to measure on, with its evidence, its lists and its sizes, and the acts. The second edition
/// is not generated.
struct Case {
    picture: Vec<u8>,
    evidence: Vec<u8>,
    lists: Lists,
    asked: Option<Asked>,
    acts: [Act; 3],
}

/// An act on a block of a picture on which it is done.
struct Act {
    archive: fn(&mut [u8], u32) -> i32,
    peer: fn(&mut [u8], u32) -> Result<(), u8>,
    picture: Vec<u8>,
    block: u32,
}

impl Case {
    fn of(picture: &Picture) -> Case {
        let lists = lists_of(picture);
        let asked = (picture.edition == FIRST).then(|| Asked::of(picture));
        let acts = acts_on(picture);
        let picture = pack(picture);
        let mut evidence = vec![0; MAX_EVIDENCE_BYTES];
        let length = peer::choose(&picture, &mut evidence).expect("the cases are accepted");
        evidence.truncate(length);
        let case = Case { picture, evidence, lists, asked, acts };
        case.must_agree();
        case
    }

    /// Times of two that do different things are no comparison.
    fn must_agree(&self) {
        let mut evidence = vec![0; self.evidence.len()];
        let chosen = archive::choose(&self.picture, &mut evidence);
        let mut picture = vec![0; self.picture.len()];
        let written = archive::write(&self.lists, &mut picture);
        let agrees = chosen == evidence.len() as i32
            && evidence == self.evidence
            && archive::check(&self.picture, &self.evidence) == 0
            && written == picture.len() as i32
            && picture == self.picture
            && self.acts.iter().all(Act::agrees);
        if !agrees {
            differ();
        }
        if let Some(asked) = &self.asked {
            generated(SEED, asked);
        }
    }

    fn choose(&self, effort: Effort) -> Times {
        let mut buffers = [self.evidence.clone(), self.evidence.clone()];
        let [archive_buffer, peer_buffer] = &mut buffers;
        Times::of(
            effort,
            || archive::choose(black_box(&self.picture), archive_buffer),
            || peer::choose(black_box(&self.picture), peer_buffer),
        )
    }

    fn check(&self, effort: Effort) -> Times {
        Times::of(
            effort,
            || archive::check(black_box(&self.picture), black_box(&self.evidence)),
            || peer::check(black_box(&self.picture), black_box(&self.evidence)),
        )
    }

    fn write(&self, effort: Effort) -> Times {
        let mut pictures = [self.picture.clone(), self.picture.clone()];
        let [archive_picture, peer_picture] = &mut pictures;
        Times::of(
            effort,
            || archive::write(black_box(&self.lists), archive_picture),
            || peer::write(black_box(&self.lists), peer_picture),
        )
    }

    /// A picture of the same sizes.
    fn generate(&self, asked: &Asked, effort: Effort) -> Times {
        let mut pictures = [self.picture.clone(), self.picture.clone()];
        let [archive_picture, peer_picture] = &mut pictures;
        Times::of(
            effort,
            || archive::generate(black_box(SEED), black_box(asked), archive_picture),
            || peer::generate(black_box(SEED), black_box(asked), peer_picture),
        )
    }
}

impl Act {
    /// Each call on the picture as it was: copying it counts, for both.
    fn times(&self, effort: Effort) -> Times {
        let mut pictures = [self.picture.clone(), self.picture.clone()];
        let [archive_picture, peer_picture] = &mut pictures;
        Times::of(
            effort,
            || {
                archive_picture.copy_from_slice(black_box(&self.picture));
                (self.archive)(archive_picture, self.block)
            },
            || {
                peer_picture.copy_from_slice(black_box(&self.picture));
                (self.peer)(peer_picture, self.block)
            },
        )
    }

    /// Both do it, and leave the same picture.
    fn agrees(&self) -> bool {
        let [mut archive_picture, mut peer_picture] = [self.picture.clone(), self.picture.clone()];
        (self.archive)(&mut archive_picture, self.block) == 0
            && (self.peer)(&mut peer_picture, self.block) == Ok(())
            && archive_picture == peer_picture
    }

    fn peak(&self) -> usize {
        // The call runs twice, each time on the picture as it was.
        let mut lent = self.picture.clone();
        stack::peak(&mut || {
            lent.copy_from_slice(&self.picture);
            (self.archive)(&mut lent, self.block);
        })
    }
}

/// Evict, reload and free of the last block, which on a chain is the farthest.
fn acts_on(picture: &Picture) -> [Act; 3] {
    let mut open = picture.clone();
    open.near_limit = open.edition.max_near_limit();
    open.endpoints.iter_mut().for_each(|endpoint| endpoint.protected = false);
    hold_all(&mut open);
    let last = open.block_count() - 1;
    let mut evicted = open.clone();
    for location in open.block_locations(last) {
        evicted.slots[location - 1].state = State::Recoverable;
    }
    let block = last as u32;
    [
        Act { archive: archive::evict, peer: peer::evict, picture: pack(&open), block },
        Act { archive: archive::reload, peer: peer::reload, picture: pack(&evicted), block },
        Act { archive: archive::free, peer: peer::free, picture: pack(&open), block },
    ]
}

/// The picture that both generate from a seed; the archive must make the same bytes as the peer.
fn generated(seed: u64, asked: &Asked) -> Vec<u8> {
    let [mut archive_picture, mut picture] = [vec![0; MAX_PICTURE_BYTES], vec![0; MAX_PICTURE_BYTES]];
    let answer = archive::generate(seed, asked, &mut archive_picture);
    let length = peer::generate(seed, asked, &mut picture).expect("sizes within the limits");
    if answer != length as i32 || archive_picture != picture {
        differ();
    }
    picture.truncate(length);
    picture
}

fn differ() -> ! {
    eprintln!("bench: archive and peer differ; run compare");
    exit(1)
}

fn dense(size: Size) -> Picture {
    dense_held(&mut Random::new(SEED), size)
}

/// A size of the first edition, in which growth is measured.
fn first(slots: usize, block_size: usize, endpoints: usize, links: usize, serving: usize) -> Size {
    Size { edition: FIRST, block_size, slots, endpoints, links, serving }
}

fn cases() -> Vec<(&'static str, Picture)> {
    vec![
        ("case A", samples::case_a()),
        ("middle: n 96, b 4, D 60, L S 400", dense(first(96, 4, 60, 400, 400))),
        ("chain: n 240, b 4", long_chain(FIRST, 4, 240, 60)),
        ("full: n 240, b 4, D 200, L S 2000", dense(Size::longest(FIRST, 4))),
        ("second: case A", samples::second()),
        ("second: chain: n 320, b 8", long_chain(SECOND, 8, 320, 60)),
        ("second: n 320, b 8, D 200, L S 2000", dense(Size::longest(SECOND, 8))),
        ("second: n 300, b 5, D 200, L S 2000", dense(Size::longest(SECOND, 5))),
    ]
}

fn print_times(effort: Effort) {
    println!("time a call in microseconds, median of {}", effort.measurements);
    println!("{:<36}{:<8}{:>12}{:>12}{:>14}", "case", "call", "archive", "peer", "archive/peer");
    for (name, picture) in cases() {
        let case = Case::of(&picture);
        let [evict, reload, free] = &case.acts;
        let mut rows = vec![
            ("choose", case.choose(effort)),
            ("check", case.check(effort)),
            ("evict", evict.times(effort)),
            ("reload", reload.times(effort)),
            ("free", free.times(effort)),
            ("write", case.write(effort)),
        ];
        if let Some(asked) = &case.asked {
            rows.push(("generate", case.generate(asked, effort)));
        }
        for (call, times) in rows {
            let Both { archive, peer } = times.medians();
            println!("{name:<36}{call:<8}{archive:>12.2}{peer:>12.2}{:>14.2}", archive / peer);
        }
    }
}

/// What doubles, and the sizes (n, block size, L, S) in which it does.
type Series = (&'static str, Vec<(usize, usize, usize, usize)>);

fn series() -> Vec<Series> {
    vec![
        ("n, blocks with it", [60, 120, 240].map(|n| (n, 4, 1000, 1000)).to_vec()),
        ("n, 30 blocks", vec![(60, 2, 1000, 1000), (120, 4, 1000, 1000), (240, 8, 1000, 1000)]),
        ("L", [250, 500, 1000, 2000].map(|l| (240, 4, l, 1000)).to_vec()),
        ("S", [250, 500, 1000, 2000].map(|s| (240, 4, 1000, s)).to_vec()),
        ("n, L and S", [60, 120, 240].map(|n| (n, 4, n * 25 / 3, n * 25 / 3)).to_vec()),
    ]
}

fn print_growth(effort: Effort) {
    println!("growth of the archive's times as sizes double (edition 1, D 100, dense, all held, near, reached)");
    println!(
        "{:<20}{:>6}{:>6}{:>6}{:>6}{:>14}{:>10}{:>14}{:>10}",
        "what doubles", "n", "b", "L", "S", "choose us", "growth", "check us", "growth"
    );
    for (name, sizes) in series() {
        let mut last = None;
        for (slots, block_size, links, serving) in sizes {
            let case = Case::of(&dense(first(slots, block_size, 100, links, serving)));
            let (choose, check) = (case.choose(effort).medians(), case.check(effort).medians());
            let choose_growth = growth(last.map(|(choose, _)| choose), choose);
            let check_growth = growth(last.map(|(_, check)| check), check);
            println!(
                "{name:<20}{slots:>6}{block_size:>6}{links:>6}{serving:>6}{:>14.2}{choose_growth:>10}{:>14.2}{check_growth:>10}",
                choose.archive, check.archive
            );
            last = Some((choose, check));
        }
    }
}

fn growth(before: Option<Both>, now: Both) -> String {
    match before {
        None => "-".to_string(),
        Some(before) => format!("{:.2}", now.archive / before.archive),
    }
}

/// The calls are lent buffers that are long enough for every picture, as a terminal lends them. Price is
/// called on a flat network of the picture's size.
fn peaks(picture: &Picture) -> ([usize; 7], Option<usize>) {
    let case = Case::of(picture);
    let [evict, reload, free] = &case.acts;
    let mut evidence = vec![0; MAX_EVIDENCE_BYTES];
    let mut written = vec![0; MAX_PICTURE_BYTES];
    let peaks = [
        stack::peak(&mut || {
            archive::choose(&case.picture, &mut evidence);
        }),
        stack::peak(&mut || {
            archive::check(&case.picture, &case.evidence);
        }),
        evict.peak(),
        reload.peak(),
        free.peak(),
        stack::peak(&mut || {
            archive::write(&case.lists, &mut written);
        }),
        price::peak(picture),
    ];
    let generate = case.asked.map(|asked| {
        stack::peak(&mut || {
            archive::generate(SEED, &asked, &mut written);
        })
    });
    (peaks, generate)
}

/// Prints the peaks and gives the largest.
fn print_stack() -> usize {
    println!("peak stack of the archive's calls in bytes (upper estimates: a page of 4096 is added)");
    println!(
        "{:<36}{:>10}{:>10}{:>10}{:>10}{:>10}{:>10}{:>10}{:>10}",
        "case", "choose", "check", "evict", "reload", "free", "write", "generate", "price"
    );
    let mut most = 0;
    for (name, picture) in cases() {
        let (peaks, generate) = peaks(&picture);
        let [choose, check, evict, reload, free, write, price] = peaks;
        print!("{name:<36}{choose:>10}{check:>10}{evict:>10}{reload:>10}{free:>10}{write:>10}");
        print!("{:>10}", generate.map_or("-".to_string(), |bytes| bytes.to_string()));
        println!("{price:>10}");
        most = peaks.into_iter().chain(generate).fold(most, usize::max);
    }
    most
}

fn stack_limit() -> usize {
    let line = HEADER.lines().find_map(|line| line.strip_prefix("#define BLOCKPLAN_STACK "));
    line.and_then(|number| number.trim().parse().ok()).expect("the header defines BLOCKPLAN_STACK")
}

fn main() {
    let arguments: Vec<String> = env::args().skip(1).collect();
    let repetitions = match arguments.as_slice() {
        [] => DEFAULT_REPETITIONS,
        [word] if word == "load" => return print_load(),
        [word] if word == "stack" => exit(i32::from(print_stack() > stack_limit())),
        [text] => text.parse().ok().filter(|repetitions| *repetitions > 0).unwrap_or_else(|| usage()),
        _ => usage(),
    };
    let effort = Effort { measurements: repetitions, least_time: LEAST_TIME };
    print_times(effort);
    println!();
    print_prices(effort);
    println!();
    print_growth(effort);
    println!();
    print_load();
    println!();
    print_stack();
}

fn usage() -> ! {
    eprintln!("usage: bench [REPETITIONS, at least 1], bench load, or bench stack");
    exit(2)
}
