//! Prints random questions with this implementation's answers, as a table of the crate `examples`.
//!
//! `questions [SEED]`: see `../questions`, which has the definitions answer them by computation.

use std::env;
use std::fmt::Display;
use std::process::exit;

use peer::calls::{any_calls, make_all, waiting, Act, Call, ACTS};
use peer::choice::{Plan, Section};
use peer::edition::{EDITIONS, FIRST, MAX_BLOCK_SIZE, MAX_ENDPOINTS, MAX_LINKS};
use peer::faults::{wrong_ends, FAULTS};
use peer::foreign::{self, GROWTHS};
use peer::networks::{any_edition, flat, network, tied, Size, SHAPES};
use peer::picture::{Endpoint, Picture, State};
use peer::price::{any_records, pack_records};
use peer::random::Random;
use peer::reach::Network;
use peer::refusals::number_of;
use peer::{
    check, choose, generate, lists_of, pack, price, samples, show, weigh, write, Asked, Edition, Lists,
};

const DEFAULT_SEED: u64 = 77;
/// Networks of each shape; in the last of them a bit is turned over.
const ROUNDS: usize = 5;
/// Networks with more than eight slots in a block.
const WIDE: usize = 4;
/// Networks whose lists are written.
const WRITTEN: usize = 3;
/// Random networks in which candidates lose equal weight.
const TIES: usize = 4;
/// Draws of a seed of chance.
const DRAWS: usize = 12;
/// Small networks that are generated.
const GENERATED: usize = 3;
/// Small networks of each edition on which lists of calls are made.
const CALLED: usize = 2;
/// Small flat networks of each edition that are priced.
const PRICED: usize = 2;
/// Longer than evidence and picture of a small network, and what the buffer holds before.
const ROOM: usize = 500;
const BEFORE: u8 = 0xEE;

struct Table {
    rows: Vec<String>,
}

impl Table {
    fn add<T: Display>(&mut self, question: String, answer: &[T]) {
        self.rows.push(format!("record {{ question = {question}; says = {} }}", items(answer)));
    }

    /// A refusal is its number alone, an answer 0 and what is told.
    fn add_answer(&mut self, question: String, answer: Result<Vec<u32>, u8>) {
        match answer {
            Err(number) => self.add(question, &[u32::from(number)]),
            Ok(values) => self.add(question, &[vec![0], values].concat()),
        }
    }

    /// A length or a refusal, and the whole buffer at exit.
    fn add_buffer(&mut self, question: String, answer: Result<usize, u8>, lent: &[u8]) {
        let answer = match answer {
            Ok(length) => vec![0, length as u32],
            Err(number) => vec![u32::from(number)],
        };
        self.add(question, &[answer, numbers(lent)].concat());
    }
}

fn items<T: Display>(rows: &[T]) -> String {
    let each: String = rows.iter().map(|row| format!("{row} ∷ ")).collect();
    format!("{each}[]")
}

fn list<T: Display>(rows: &[T]) -> String {
    format!("({})", items(rows))
}

fn pairs(links: &[[u16; 2]]) -> String {
    let links: Vec<String> = links.iter().map(|link| list(link)).collect();
    list(&links)
}

/// What write is handed, in the order of its arguments.
fn handed(lists: &Lists) -> String {
    let arguments = [
        lists.edition.to_string(),
        lists.block_size.to_string(),
        lists.near_limit.to_string(),
        list(&lists.states),
        list(&lists.near),
        list(&lists.weights),
        list(&lists.protected),
        pairs(&lists.links),
        pairs(&lists.serving),
    ];
    format!("(handed {})", arguments.join(" "))
}

fn numbers(bytes: &[u8]) -> Vec<u32> {
    bytes.iter().copied().map(u32::from).collect()
}

/// Read of a picture that is refused.
fn ask_read(table: &mut Table, bytes: &[u8]) {
    let number = peer::read(bytes).expect_err("a fault");
    table.add(format!("read {}", list(bytes)), &[u32::from(number)]);
}

fn ask_choose(table: &mut Table, bytes: &[u8], room: usize) {
    let mut lent = vec![BEFORE; room];
    let answer = choose(bytes, &mut lent);
    let question = format!("choose {} (replicate {room} {BEFORE}) {room}", list(bytes));
    table.add_buffer(question, answer, &lent);
}

fn ask_check(table: &mut Table, bytes: &[u8], evidence: &[u8]) {
    let answer = check(bytes, evidence).map(|()| Vec::new());
    table.add_answer(format!("check {} {}", list(bytes), list(evidence)), answer);
}

fn ask(table: &mut Table, random: &mut Random, picture: &Picture, bytes: &[u8], round: usize) {
    let name = list(bytes);
    let mut buffer = vec![BEFORE; ROOM];
    let Ok(length) = choose(bytes, &mut buffer) else {
        return ask_read(table, bytes);
    };
    let evidence = &buffer[..length];
    for room in [ROOM, length - 1] {
        ask_choose(table, bytes, room);
    }
    for block in 0..=picture.block_count() as u32 {
        let weighed =
            weigh(bytes, block).map(|(served, loss, mark)| vec![served, loss, u32::from(mark)]);
        table.add_answer(format!("weigh {name} {block}"), weighed);
    }
    let other = foreign::evidence(random, picture, GROWTHS[round % GROWTHS.len()]);
    table.add(format!("show {name} {}", list(&other)), &numbers(show(bytes, &other)));
    let mut checked = vec![evidence.to_vec(), other];
    for _ in 0..3 {
        let mut damaged = evidence.to_vec();
        damaged[random.below(length)] ^= 1 << random.below(8);
        checked.push(damaged);
    }
    for evidence in checked {
        ask_check(table, bytes, &evidence);
    }
    for act in ACTS {
        let block = random.below(picture.block_count()) as u32;
        ask_act(table, bytes, &Call { act, block });
    }
}

fn ask_act(table: &mut Table, bytes: &[u8], call: &Call) {
    let mut lent = bytes.to_vec();
    let number = number_of(call.make(&mut lent));
    let question = format!("act {:?} {} {}", call.act, list(bytes), call.block);
    table.add(question, &[vec![u32::from(number)], numbers(&lent)].concat());
}

fn ask_pictures(table: &mut Table, random: &mut Random) {
    for round in 0..ROUNDS {
        for shape in SHAPES {
            let size = Size::small(random);
            let picture = network(random, shape, size);
            let mut bytes = pack(&picture);
            if round == ROUNDS - 1 {
                let place = random.below(bytes.len());
                bytes[place] ^= 1 << random.below(8);
            }
            let read = peer::read(&bytes).unwrap_or(picture);
            ask(table, random, &read, &bytes, round);
        }
    }
}

/// Blocks of more than eight slots: the sample with fifteen, and networks of two blocks in which most
/// slots are held, near and reached.
fn ask_wide(table: &mut Table, random: &mut Random) {
    let mut pictures = vec![samples::wide()];
    for _ in 0..WIDE {
        let (block_size, endpoints) = (random.between(9, MAX_BLOCK_SIZE), random.between(2, 4));
        let edition = any_edition(random);
        pictures.push(tied(random, edition, block_size, 2, endpoints));
    }
    for (round, picture) in pictures.iter().enumerate() {
        ask(table, random, picture, &pack(picture), round);
    }
}

/// The admissible candidates of least loss, rising.
fn least_loss(plan: &Plan) -> Vec<&Section> {
    let least = plan.admissible().map(|section| section.cut.loss).min();
    plan.admissible().filter(|section| Some(section.cut.loss) == least).collect()
}

/// A small network in which every admissible candidate loses some weight, and the lowest one of least
/// loss is not chosen: it cuts more endpoints than another one. The forests are another maker's.
fn small_tie(random: &mut Random) -> (Vec<u8>, Plan) {
    loop {
        let endpoints = random.between(4, 6);
        let edition = any_edition(random);
        let picture = tied(random, edition, 1, 3, endpoints);
        let growth = *random.pick(&GROWTHS);
        let plan = foreign::plan(random, &picture, growth);
        let Some(chosen) = plan.least() else { continue };
        let is_decided = chosen.cut.loss > 0 && least_loss(&plan)[0].block != chosen.block;
        if is_decided && plan.forest != Plan::of(&picture).forest {
            return (pack(&picture), plan);
        }
    }
}

/// Case A in the second edition, its header cut off or wrong, and evidence of the one edition for the
/// other's picture.
fn ask_second(table: &mut Table, random: &mut Random) {
    let bytes = samples::SECOND_BYTES;
    ask(table, random, &samples::second(), &bytes, 0);
    for length in [6, 7, 8, bytes.len() - 1] {
        ask_read(table, &bytes[..length]);
    }
    // Editions 0 and 3, block size 0, n 321 and n 320 in blocks of five, D 201, and a fill bit.
    for places in [
        vec![(0, 0x02)],
        vec![(0, 0x32)],
        vec![(0, 0x20)],
        vec![(0, 0x21), (1, 0x14), (2, 0x10)],
        vec![(0, 0x25), (1, 0x14), (2, 0x00)],
        vec![(4, 201)],
        vec![(33, 0x81)],
    ] {
        let mut wrong = bytes;
        for (place, value) in places {
            wrong[place] = value;
        }
        ask_read(table, &wrong);
    }
    ask_check(table, &bytes, &samples::A_EVIDENCE);
    ask_check(table, &samples::A_BYTES, &samples::SECOND_EVIDENCE);
}

/// Choose where candidates lose equal weight, and evidence that names each of them. In D they cut
/// equally many endpoints too.
fn ask_ties(table: &mut Table, random: &mut Random) {
    let samples = [samples::case('D'), samples::tie()];
    let samples = samples.map(|sample| (pack(&sample), Plan::of(&sample)));
    for (bytes, plan) in samples.into_iter().chain((0..TIES).map(|_| small_tie(random))) {
        ask_choose(table, &bytes, plan.evidence(None).len());
        for section in least_loss(&plan) {
            ask_check(table, &bytes, &plan.evidence(Some(section)));
        }
    }
}

/// Write with a buffer that has old bytes of chance.
fn ask_write(table: &mut Table, random: &mut Random, lists: &Lists, room: usize) {
    let mut lent: Vec<u8> = (0..room).map(|_| random.byte()).collect();
    let question = format!("write {} {}", handed(lists), list(&lent));
    let answer = write(lists, &mut lent);
    table.add_buffer(question, answer, &lent);
}

/// A small network with a link and two serving links at least, so that each kind of fault can be had.
fn linked(random: &mut Random) -> Picture {
    loop {
        let size = Size::small(random);
        let shape = *random.pick(&SHAPES);
        let picture = network(random, shape, size);
        if !picture.links.is_empty() && picture.serving.len() > 1 {
            return picture;
        }
    }
}

/// Lists that are right with each kind of buffer, with each kind of fault, and with all faults from
/// each kind on, so that the order shows.
fn ask_lists(table: &mut Table, random: &mut Random) {
    let mut right = lists_of(&linked(random));
    right.weights.fill_with(|| random.draw() as u16);
    let length = write(&right, &mut [0; ROOM]).expect("networks are accepted");
    for room in [length, length - 1, length + random.between(1, 9)] {
        ask_write(table, random, &right, room);
    }
    for first in 0..FAULTS.len() {
        let mut lists = right.clone();
        FAULTS[first](random, &mut lists);
        ask_write(table, random, &lists, length);
        for fault in &FAULTS[first + 1..] {
            fault(random, &mut lists);
        }
        ask_write(table, random, &lists, 0);
    }
}

fn ask_written(table: &mut Table, random: &mut Random) {
    for _ in 0..WRITTEN {
        ask_lists(table, random);
    }
}

/// Block sizes and numbers of slots that a picture may have and may not.
fn ask_blocks(table: &mut Table, random: &mut Random) {
    for edition in EDITIONS {
        for (block_size, slots) in
            [(1, 0), (1, 60), (1, 61), (3, 4), (8, 8), (9, 9), (15, 15), (15, 16), (16, 16)]
        {
            let mut lists = lists_of(&Picture { edition, ..samples::case('M') });
            lists.block_size = block_size;
            lists.states.resize(slots, 2);
            lists.near.resize(slots, false);
            ask_write(table, random, &lists, 50);
        }
    }
}

/// Editions that there are and are not, and near limits that fit their headers and do not.
fn ask_editions(table: &mut Table, random: &mut Random) {
    for (edition, near_limit) in [
        (0, 2),
        (3, 2),
        (16 + 1, 2),
        (u32::MAX, 2),
        (1, 255),
        (1, 256),
        (2, 255),
        (2, 300),
        (2, 4095),
        (2, 4096),
        (1, u16::MAX),
        (2, u16::MAX),
        (3, u16::MAX),
    ] {
        let lists = Lists { edition, near_limit, ..lists_of(&samples::case_a()) };
        ask_write(table, random, &lists, samples::SECOND_BYTES.len());
    }
}

/// A link and two serving links with every two numbers wrong, and without endpoints, read and written.
fn ask_links(table: &mut Table, random: &mut Random) {
    let mut picture = linked(random);
    picture.links.truncate(1);
    picture.serving.truncate(2);
    let mut wrong: Vec<Picture> = wrong_ends(&picture).into_iter().map(|(_, wrong)| wrong).collect();
    picture.endpoints.clear();
    wrong.push(picture.clone());
    picture.serving[0].0 = 255;
    wrong.push(picture);
    for picture in wrong {
        let bytes = pack(&picture);
        ask_read(table, &bytes);
        ask_write(table, random, &lists_of(&picture), bytes.len());
    }
}

/// A draw by its seed and its number, counted from 1.
fn ask_draw(table: &mut Table, seed: u64, number: usize) {
    let mut random = Random::new(seed);
    let last = (0..number).map(|_| random.draw()).last().expect("draws are counted from 1");
    table.add(format!("drawn {seed} {number}"), &[last]);
}

/// First draws, also of seeds at the ends of 64 bits, and draws as far on as the longest picture takes
/// them.
fn ask_draws(table: &mut Table, random: &mut Random) {
    const MOST: usize = 2 * (FIRST.max_slots + MAX_ENDPOINTS + 2 * MAX_LINKS);
    for seed in [0, u64::MAX] {
        ask_draw(table, seed, 1);
    }
    for round in 0..DRAWS {
        let most = if round % 2 == 0 { 9 } else { MOST };
        let (seed, number) = (random.draw(), random.between(1, most));
        ask_draw(table, seed, number);
    }
}

/// The header that the sizes ask for, in the order of the arguments.
fn header(asked: &Asked) -> String {
    let Asked { block_size, blocks, endpoints, links, serving } = asked;
    format!("(asked_header {block_size} {blocks} {endpoints} {links} {serving})")
}

fn ask_generate(table: &mut Table, seed: u64, asked: &Asked, mut lent: Vec<u8>) {
    let question = format!("generate {seed} {} {}", header(asked), list(&lent));
    let answer = generate(seed, asked, &mut lent);
    table.add_buffer(question, answer, &lent);
}

/// Small networks with each kind of buffer.
fn ask_networks(table: &mut Table, random: &mut Random) {
    for _ in 0..GENERATED {
        let asked = Asked {
            block_size: random.between(1, 4) as u32,
            blocks: random.between(1, 4) as u32,
            endpoints: random.between(1, 4) as u32,
            links: random.between(1, 12) as u32,
            serving: random.between(1, 8) as u32,
        };
        let seed = random.draw();
        let length = generate(seed, &asked, &mut [0; ROOM]).expect("the limits are kept");
        ask_generate(table, seed, &asked, vec![0; length - 1]);
        for room in [length, length + random.between(1, 9)] {
            let lent = (0..room).map(|_| random.byte()).collect();
            ask_generate(table, seed, &asked, lent);
        }
    }
}

/// Sizes at the limits and beyond them, with a few bytes that are 0: those that no picture has, and
/// those for which the buffer alone is too short.
fn ask_sizes(table: &mut Table, random: &mut Random) {
    for (block_size, blocks, endpoints, links, serving) in [
        (0, 4, 2, 3, 3),
        (16, 4, 2, 3, 3),
        (2, 0, 2, 3, 3),
        (1, 61, 2, 3, 3),
        (15, 17, 201, 3, 3),
        (65_536, 65_536, 2, 3, 3),
        (u32::MAX, u32::MAX, u32::MAX, u32::MAX, u32::MAX),
        (4, 60, 201, 3, 3),
        (4, 60, 2, 2001, 3),
        (4, 60, 2, 3, 2001),
        (2, 2, 0, 3, 1),
        (4, 60, 200, 2000, 2000),
        (15, 16, 0, 2000, 0),
    ] {
        let asked = Asked { block_size, blocks, endpoints, links, serving };
        let (seed, room) = (random.draw(), random.between(0, 9));
        ask_generate(table, seed, &asked, vec![0; room]);
    }
}

/// The table's names of the acts are those of the enum.
fn made(call: &Call) -> String {
    format!("record {{ act = {:?}; block = {} }}", call.act, call.block)
}

/// What each call of a list answers, and the served weight and the picture then.
fn ask_list(table: &mut Table, bytes: &[u8], calls: &[Call]) {
    let mut lent = bytes.to_vec();
    let answers = make_all(&mut lent, calls);
    let answers = answers.into_iter().map(|answer| u32::from(number_of(answer))).collect();
    let (served, _, _) = weigh(&lent, 0).expect("an accepted picture, which has a block 0");
    let calls: Vec<String> = calls.iter().map(made).collect();
    let question = format!("calls {} {}", list(bytes), list(&calls));
    table.add(question, &[answers, vec![served], numbers(&lent)].concat());
}

/// A few blocks, which serve most endpoints alone, so that acts are done and refused for each reason.
fn few_blocks(random: &mut Random, edition: Edition) -> Picture {
    let (block_size, blocks) = (random.between(1, 2), random.between(2, 3));
    let mut picture = tied(random, edition, block_size, blocks, blocks + 1);
    picture.near_limit = random.between(1, block_size * blocks) as u16;
    for slot in &mut picture.slots {
        slot.state = *random.pick(&[State::Held, State::Held, State::Recoverable]);
    }
    for endpoint in &mut picture.endpoints {
        *endpoint = Endpoint { weight: random.between(1, 999) as u16, protected: random.once_in(3) };
    }
    picture
}

/// No call, one, and some, on small networks of both editions.
fn ask_calls(table: &mut Table, random: &mut Random) {
    for edition in EDITIONS.repeat(CALLED) {
        let picture = few_blocks(random, edition);
        for count in [0, 1, random.between(4, 8)] {
            let calls = any_calls(random, picture.block_count(), count);
            ask_list(table, &pack(&picture), &calls);
        }
    }
}

/// A way to take a picture: as it is, or with all recoverable slots held.
type Taken = fn(&Picture) -> Picture;

/// A few slots, of which some block cuts a protected endpoint as the picture is taken first, and none as
/// it is taken second.
fn small_waiting(random: &mut Random, edition: Edition, [first, second]: [Taken; 2]) -> Picture {
    loop {
        let block_size = random.between(1, 2);
        let slots = block_size * random.between(2, 3);
        let (endpoints, serving) = (random.between(1, 3), random.between(2, 5));
        let size = Size { edition, block_size, slots, endpoints, links: slots + 1, serving };
        let picture = waiting(random, size);
        let mark = |taken: Taken, block| {
            let (_, cut) = Network::new(&taken(&picture)).weigh(&picture.block_locations(block));
            cut.mark
        };
        if (0..picture.block_count()).any(|block| mark(first, block) > mark(second, block)) {
            return picture;
        }
    }
}

/// Free and evict of each block where either judgement of free decides alone, and a list in which all
/// blocks are freed that may be, the others reloaded, and all that may be freed again.
fn ask_frees(table: &mut Table, random: &mut Random) {
    for edition in EDITIONS {
        let (now, chained): (Taken, Taken) = (Picture::clone, Picture::all_reloaded);
        for judgements in [[now, chained], [chained, now]] {
            let picture = small_waiting(random, edition, judgements);
            let bytes = pack(&picture);
            let each = |act| (0..picture.block_count() as u32).map(move |block| Call { act, block });
            each(Act::Free).chain(each(Act::Evict)).for_each(|call| ask_act(table, &bytes, &call));
            let day: Vec<Call> =
                each(Act::Free).chain(each(Act::Reload)).chain(each(Act::Free)).collect();
            ask_list(table, &bytes, &day);
        }
    }
}

fn ask_price(table: &mut Table, bytes: &[u8], records: &[u8]) {
    let answer = price(bytes, records).map(|counters| counters.to_vec());
    table.add_answer(format!("price {} {}", list(bytes), list(records)), answer);
}

/// A small flat network and a few records by which some block of it loses something.
fn small_priced(random: &mut Random, edition: Edition) -> (Picture, Vec<u8>) {
    loop {
        let block_size = random.between(1, 3);
        let size = Size {
            edition,
            block_size,
            slots: block_size * random.between(2, 6 / block_size),
            endpoints: random.between(1, 3),
            links: random.between(2, 8),
            serving: random.between(2, 6),
        };
        let picture = flat(random, size);
        let count = random.between(1, 5);
        let records = pack_records(&any_records(random, size.endpoints, count));
        let counters = price(&pack(&picture), &records).expect("a flat network");
        if counters.iter().any(|counter| *counter > 0) {
            return (picture, records);
        }
    }
}

/// Flat networks with records that are right, with none, and with faults, one more each time from the
/// last to the first, so that the order shows.
fn ask_prices(table: &mut Table, random: &mut Random) {
    for edition in EDITIONS.repeat(PRICED) {
        let (picture, records) = small_priced(random, edition);
        ask_price(table, &pack(&picture), &records);
    }
    ask_price(table, &pack(&samples::flat_a()), &[]);
    for edition in EDITIONS {
        let (mut picture, mut records) = small_priced(random, edition);
        records[0] = *random.pick(&[0, picture.endpoints.len() as u8 + 1, 255]);
        ask_price(table, &pack(&picture), &records);
        records.pop();
        ask_price(table, &pack(&picture), &records);
        picture.links[0].0 = random.between(1, picture.slots.len()) as u16;
        ask_price(table, &pack(&picture), &records);
        ask_price(table, &[pack(&picture), vec![0]].concat(), &records);
    }
}

type Ask = fn(&mut Table, &mut Random);

/// What questions are about, in their order in the table.
const KINDS: [(&str, &[Ask]); 7] = [
    ("pictures", &[ask_pictures, ask_wide, ask_second]),
    ("lists", &[ask_written, ask_blocks, ask_editions]),
    ("ties", &[ask_ties]),
    ("links", &[ask_links]),
    ("seeds", &[ask_draws, ask_networks, ask_sizes]),
    ("calls", &[ask_calls, ask_frees]),
    ("prices", &[ask_prices]),
];

fn main() {
    let arguments: Vec<String> = env::args().skip(1).collect();
    let seed = match arguments.as_slice() {
        [] => Some(DEFAULT_SEED),
        [text] => text.parse().ok(),
        _ => None,
    };
    let Some(seed) = seed else {
        eprintln!("usage: questions [SEED]");
        exit(2)
    };
    let mut random = Random::new(seed);
    let mut table = Table { rows: Vec::new() };
    for (about, kind) in KINDS {
        let before = table.rows.len();
        kind.iter().for_each(|ask| ask(&mut table, &mut random));
        eprintln!("questions: {} about {about}", table.rows.len() - before);
    }
    println!("unfoldable pub table : List Row\ntable =\n    {}\n    ∷ []", table.rows.join("\n    ∷ "));
}
