//! Evidence that is canonical but for some fields, its length, or the picture it is for.

use peer::edition::{EDITIONS, FIRST, HEAD_BYTES, SECTION_HEAD_BYTES};
use peer::picture::{Picture, State};
use peer::random::Random;
use peer::refusals::FORM;
use peer::{pack, samples};

use super::harness::Comparison;
use super::{any_network, canonical};

/// Where a field stands, in bits. Edition and verdict share the first byte, which is tried as one.
#[derive(Clone, Copy)]
pub struct Field {
    place: usize,
    width: usize,
}

/// The loss in the head, and in a section.
const HEAD_LOSS: Field = Field { place: 8 * 6, width: 24 };
const SECTION_LOSS: Field = Field { place: 8, width: 24 };

/// The fields of evidence for this picture.
pub fn fields_of(evidence: &[u8], picture: &Picture) -> Vec<Field> {
    let slots = picture.slots.len();
    let forest = vec![picture.edition.location_width; 2 * slots];
    let mut widths = vec![8, 8, 8, 24, 24];
    widths.extend(&forest);
    for _ in sections_of(evidence, picture) {
        widths.extend([8, 24, 8]);
        widths.extend(&forest);
    }
    let mut place = 0;
    let mut fields = Vec::with_capacity(widths.len());
    for width in widths {
        fields.push(Field { place, width });
        place += width;
    }
    fields
}

/// The sections of evidence that has as many bytes as it should.
fn sections_of<'e>(evidence: &'e [u8], picture: &Picture) -> impl Iterator<Item = &'e [u8]> {
    let slots = picture.slots.len();
    evidence[first_section(picture)..].chunks(picture.edition.section_bytes(slots))
}

fn first_section(picture: &Picture) -> usize {
    HEAD_BYTES + picture.edition.forest_bytes(picture.slots.len())
}

/// Where the forest of a section starts; section 0 is the forest before any eviction.
pub fn forest_start(picture: &Picture, section: usize) -> usize {
    let bytes = picture.edition.section_bytes(picture.slots.len());
    match section {
        0 => HEAD_BYTES,
        _ => first_section(picture) + (section - 1) * bytes + SECTION_HEAD_BYTES,
    }
}

/// Parent and depth of a slot in the forest that starts at byte `start`.
pub fn entry(picture: &Picture, start: usize, slot: usize) -> [Field; 2] {
    let width = picture.edition.location_width;
    let place = 8 * start + 2 * width * (slot - 1);
    [Field { place, width }, Field { place: place + width, width }]
}

pub fn get(evidence: &[u8], field: Field) -> u32 {
    let bit = |place: usize| u32::from(evidence[place / 8] >> (7 - place % 8) & 1);
    (field.place..field.place + field.width).fold(0, |value, place| value << 1 | bit(place))
}

/// Writes the lowest bits of the value, as many as the field has.
pub fn set(evidence: &mut [u8], field: Field, value: u32) {
    for (place, shift) in (field.place..).zip((0..field.width).rev()) {
        let mask = 0x80 >> (place % 8);
        match value >> shift & 1 {
            0 => evidence[place / 8] &= !mask,
            _ => evidence[place / 8] |= mask,
        }
    }
}

/// Other values worth trying for a field.
fn values(random: &mut Random, old: u32, slots: usize) -> Vec<u32> {
    let mut values: Vec<u32> = (0..slots.min(14) as u32 + 2).collect();
    values.extend([old.wrapping_add(1), old.wrapping_sub(1), old ^ 16, slots as u32, slots as u32 + 1]);
    values.extend([255, 256, old ^ 256, 65_536, 0xFF_FFFF, random.draw() as u32]);
    values.extend((0..24).step_by(5).map(|bit| old ^ 1 << bit));
    values
}

/// Each byte of the samples' evidence with each value, each wider field with some, every truncation.
pub fn of_samples(comparison: &mut Comparison, random: &mut Random, _: usize) {
    for sample in samples::small() {
        let picture = pack(&sample);
        let evidence = canonical(&picture).expect("the samples are accepted");
        for place in 0..evidence.len() {
            for value in 0..=255 {
                let mut changed = evidence.clone();
                changed[place] = value;
                comparison.check(&picture, &changed);
            }
        }
        for length in 0..evidence.len() {
            comparison.check(&picture, &evidence[..length]);
        }
        other_lengths(comparison, random, &sample, &evidence);
        each_field(comparison, random, &sample, &evidence);
        each_verdict(comparison, &sample, &evidence);
    }
}

/// Every field of small evidence, random fields of large evidence, and several fields at once.
pub fn fields(comparison: &mut Comparison, random: &mut Random, count: usize) {
    for round in 0..count.div_ceil(2) {
        let picture = any_network(random, round, 16);
        let evidence = canonical(&pack(&picture)).expect("networks are accepted");
        if round % 8 == 0 {
            random_fields(comparison, random, &picture, &evidence, 30);
            continue;
        }
        if round % 4 == 1 {
            each_field(comparison, random, &picture, &evidence);
        }
        each_verdict(comparison, &picture, &evidence);
        random_fields(comparison, random, &picture, &evidence, 60);
    }
}

fn each_field(comparison: &mut Comparison, random: &mut Random, picture: &Picture, evidence: &[u8]) {
    let bytes = pack(picture);
    for field in fields_of(evidence, picture) {
        for value in values(random, get(evidence, field), picture.slots.len()) {
            let mut changed = evidence.to_vec();
            set(&mut changed, field, value);
            comparison.check(&bytes, &changed);
        }
    }
}

/// One to four fields at once, often of the same section, so that the order of faults shows.
pub fn random_fields(
    comparison: &mut Comparison,
    random: &mut Random,
    picture: &Picture,
    evidence: &[u8],
    times: usize,
) {
    let bytes = pack(picture);
    let fields = fields_of(evidence, picture);
    let heads = heads(&fields, picture);
    for _ in 0..times {
        let mut changed = evidence.to_vec();
        for _ in 0..random.between(1, 4) {
            // The heads are few fields among many, and most rules are about them.
            let field = match random.once_in(2) {
                true => *random.pick(&heads),
                false => *random.pick(&fields),
            };
            let old = get(&changed, field);
            let others = values(random, old, picture.slots.len());
            set(&mut changed, field, *random.pick(&others));
        }
        comparison.check(&bytes, &changed);
    }
}

/// The fields that are no forest's.
fn heads(fields: &[Field], picture: &Picture) -> Vec<Field> {
    let (first, bytes) = (first_section(picture), picture.edition.section_bytes(picture.slots.len()));
    let is_head = |place: usize| {
        place < HEAD_BYTES || (place >= first && (place - first) % bytes < SECTION_HEAD_BYTES)
    };
    fields.iter().copied().filter(|field| is_head(field.place / 8)).collect()
}

/// Every verdict with every block and with every loss that the sections state, and its neighbours.
pub fn each_verdict(comparison: &mut Comparison, picture: &Picture, evidence: &[u8]) {
    let bytes = pack(picture);
    let stated = sections_of(evidence, picture).map(|section| get(section, SECTION_LOSS));
    let mut losses: Vec<u32> =
        stated.flat_map(|loss| [loss, loss + 1, loss.saturating_sub(1)]).collect();
    losses.push(0);
    losses.sort_unstable();
    losses.dedup();
    for verdict in [0, 1, 2] {
        for block in 0..=picture.block_count() {
            for loss in &losses {
                let mut changed = evidence.to_vec();
                changed[0] = picture.edition.number << 4 | verdict;
                changed[1] = block as u8;
                set(&mut changed, HEAD_LOSS, *loss);
                comparison.check(&bytes, &changed);
            }
        }
    }
}

/// Evidence cut off or lengthened, and evidence of another picture.
pub fn strangers(comparison: &mut Comparison, random: &mut Random, count: usize) {
    let mut last = pack(&samples::case_a());
    for round in 0..2 * count {
        let picture = any_network(random, round, 64);
        let bytes = pack(&picture);
        let evidence = canonical(&bytes).expect("networks are accepted");
        other_lengths(comparison, random, &picture, &evidence);
        for _ in 0..4 {
            let other = pack(&altered(random, &picture));
            comparison.check(&other, &evidence);
            comparison.check(&bytes, &canonical(&other).expect("an altered network is accepted"));
        }
        comparison.check(&last, &evidence);
        comparison.check(&bytes, &canonical(&last).expect("networks are accepted"));
        last = bytes;
    }
}

/// Evidence of a network in one edition for its picture in the other: as it is, with the picture's
/// edition in its first bits, and with the picture's length too.
pub fn other_edition(comparison: &mut Comparison, random: &mut Random, count: usize) {
    for round in 0..count {
        let mut picture = any_network(random, round, 64);
        if picture.slots.len() > FIRST.max_slots {
            continue;
        }
        picture.near_limit = picture.near_limit.min(FIRST.max_near_limit());
        let pictures = EDITIONS.map(|edition| Picture { edition, ..picture.clone() });
        for (mine, other) in [(0, 1), (1, 0)] {
            let bytes = pack(&pictures[mine]);
            let length = canonical(&bytes).expect("networks are accepted").len();
            let mut evidence = canonical(&pack(&pictures[other])).expect("networks are accepted");
            refused_form(comparison, &bytes, &evidence);
            evidence[0] ^= 0x30;
            refused_form(comparison, &bytes, &evidence);
            evidence.resize(length, 0);
            comparison.check(&bytes, &evidence);
            evidence[0] ^= 0x30;
            refused_form(comparison, &bytes, &evidence);
        }
    }
}

fn refused_form(comparison: &mut Comparison, picture: &[u8], evidence: &[u8]) {
    let answer = comparison.check(picture, evidence);
    comparison.expect("check of evidence of the other edition", answer, -i32::from(FORM));
}

fn other_lengths(comparison: &mut Comparison, random: &mut Random, picture: &Picture, evidence: &[u8]) {
    let bytes = pack(picture);
    let slots = picture.slots.len();
    let section = picture.edition.section_bytes(slots);
    for length in [0, 1, 8, random.below(evidence.len()), evidence.len() - 1] {
        comparison.check(&bytes, &evidence[..length]);
    }
    for spare in [1, section, random.between(1, 600)] {
        let mut longer = evidence.to_vec();
        longer.resize(evidence.len() + spare, 0);
        comparison.check(&bytes, &longer);
    }
    // A whole section less, with and without the count following.
    if evidence.len() > first_section(picture) {
        let mut less = evidence[..evidence.len() - section].to_vec();
        comparison.check(&bytes, &less);
        less[2] -= 1;
        comparison.check(&bytes, &less);
    }
}

/// The picture with one thing in it changed.
fn altered(random: &mut Random, picture: &Picture) -> Picture {
    let mut other = picture.clone();
    let slot = random.below(other.slots.len());
    match random.below(6) {
        0 => other.slots[slot].near = !other.slots[slot].near,
        1 => other.slots[slot].state = *random.pick(&[State::Held, State::Recoverable, State::Freed]),
        2 if !other.links.is_empty() => {
            let link = random.below(other.links.len());
            other.links[link].1 = random.between(0, other.slots.len()) as u16;
        }
        3 if !other.serving.is_empty() => {
            let link = random.below(other.serving.len());
            other.serving[link].0 = random.between(0, other.slots.len()) as u16;
        }
        4 if !other.endpoints.is_empty() => {
            let endpoint = random.below(other.endpoints.len());
            other.endpoints[endpoint].protected = !other.endpoints[endpoint].protected;
        }
        _ if !other.endpoints.is_empty() => {
            let endpoint = random.below(other.endpoints.len());
            other.endpoints[endpoint].weight = random.below(4) as u16;
        }
        _ => other.near_limit ^= 1,
    }
    other
}
