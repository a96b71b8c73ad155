//! Wrong tables: bytes changed, tables cut and lengthened, records exchanged, doubled, removed,
//! fields set to either side of their limit, lengths and kinds that are off.

use crate::draft::{Draft, Record, CLAUSE, HEAD, LINEAR, ORDER};
use crate::random::Random;

/// Kinds on both sides of what is known in a table, and two that only a report has.
pub const KINDS: [u16; 12] = [0, 1, 2, 3, 4, 5, 6, 7, 16, 17, 256, 65_535];

/// One to three bytes changed.
pub fn bytes(random: &mut Random, mut table: Vec<u8>) -> Vec<u8> {
    for _ in 0..1 + random.below(3) {
        let place = random.below(table.len());
        table[place] = match random.below(3) {
            0 => random.bits() as u8,
            1 => table[place].wrapping_add(random.pick(&[1, 255])),
            _ => table[place] ^ 1 << random.below(8),
        };
    }
    table
}

/// Cut to any shorter length.
pub fn cut(random: &mut Random, mut table: Vec<u8>) -> Vec<u8> {
    table.truncate(random.below(table.len()));
    table
}

/// A few bytes more, or one record more, after CHECK.
pub fn lengthened(random: &mut Random, mut table: Vec<u8>) -> Vec<u8> {
    let more = match random.below(4) {
        0 => {
            let length = 1 + random.below(6);
            random.bytes(length)
        }
        1 => vec![0; 1 + random.below(8)],
        _ => Draft {
            records: vec![any_record(random)],
        }
        .bytes(),
    };
    table.extend(more);
    table
}

/// A record of any kind, its length mostly right.
fn any_record(random: &mut Random) -> Record {
    match random.below(6) {
        0 => Record::head(random.word(0, 21), random.word(0, 65)),
        1 => Record::clause(random.word(0, 65), &[random.word(0, 41)]),
        2 => Record::linear(random.word(0, 65), 0, &[(random.word(0, 20), 1)]),
        3 => Record::order(&[1]),
        4 => Record::check(),
        _ => {
            let length = random.below(9);
            Record::new(random.pick(&KINDS), random.bytes(length))
        }
    }
}

/// Records exchanged, doubled, removed or put in.
pub fn sequence(random: &mut Random, mut draft: Draft) -> Draft {
    let number = draft.records.len();
    let (one, other) = (random.below(number), random.below(number));
    match random.below(4) {
        0 => draft.records.swap(one, other),
        1 => draft.records.insert(other, draft.records[one].clone()),
        2 => drop(draft.records.remove(one)),
        _ => draft.records.insert(one, any_record(random)),
    }
    draft
}

/// L off by a little, in half of the cases with the body in step.
pub fn length(random: &mut Random, mut draft: Draft) -> Draft {
    let record = any_of(random, &mut draft);
    let off = random.pick(&[-6, -4, -2, -1, 1, 2, 4, 6]);
    let length = (i32::from(record.length) + off).max(0) as u16;
    if random.chance(1, 2) {
        record.resize(usize::from(length));
    } else {
        record.length = length;
    }
    draft
}

/// Another kind.
pub fn kind(random: &mut Random, mut draft: Draft) -> Draft {
    any_of(random, &mut draft).kind = random.pick(&KINDS);
    draft
}

/// One field at its limit or past it.
pub fn field(random: &mut Random, mut draft: Draft) -> Draft {
    let sizes = (word(&draft.records[0], 0), word(&draft.records[0], 2));
    let record = any_of(random, &mut draft);
    match record.kind {
        HEAD => size(random, record),
        CLAUSE | LINEAR if random.chance(1, 3) => role(random, record, sizes.1),
        CLAUSE => variable(random, record, (2, 2), 2 * sizes.0),
        LINEAR if random.chance(1, 2) => variable(random, record, (6, 6), sizes.0),
        LINEAR => weight_or_bound(random, record),
        ORDER => order_number(random, record, sizes.1),
        _ => check_word(random, record),
    }
    draft
}

/// V or N beside a limit, or one more or fewer.
fn size(random: &mut Random, record: &mut Record) {
    let place = random.pick(&[0, 2]);
    let size = word(record, place);
    let near = [size.wrapping_sub(1), size + 1, 0, 20, 21, 64, 65, 65_535];
    record.set_word(place, random.pick(&near));
}

/// A row's role at N or past it.
fn role(random: &mut Random, record: &mut Record, requests: u16) {
    record.set_word(0, random.pick(&[0, requests, requests + 1, 65_535]));
}

/// A literal or a term's variable beside its limit; they stand in the body from `first` on, each
/// `step` bytes after the one before.
fn variable(random: &mut Random, record: &mut Record, (first, step): (usize, usize), past: u16) {
    let number = (record.body.len() - first) / step;
    if number > 0 {
        let near = [past.wrapping_sub(1), past, past + 1, 65_535];
        record.set_word(first + step * random.below(number), random.pick(&near));
    }
}

/// A weight beside a million, or the bound at an end of i32.
fn weight_or_bound(random: &mut Random, record: &mut Record) {
    let ends = [i32::MIN, i32::MAX];
    let number = (record.body.len() - 6) / 6;
    if number == 0 || random.chance(1, 4) {
        return record.set_signed(2, random.pick(&ends));
    }
    let near = [
        -1_000_000, 1_000_000, -1_000_001, 1_000_001, ends[0], ends[1],
    ];
    record.set_signed(8 + 6 * random.below(number), random.pick(&near));
}

/// An order number beside its limits, or one that is there already.
fn order_number(random: &mut Random, record: &mut Record, requests: u16) {
    if !record.body.is_empty() {
        let (one, other) = (any_word(random, record), any_word(random, record));
        let repeat = word(record, other);
        let near = [0, requests, requests + 1, 65_535, repeat, repeat, repeat];
        record.set_word(one, random.pick(&near));
    }
}

/// Another CHECK word.
fn check_word(random: &mut Random, record: &mut Record) {
    let more = random.pick(&[1, 255, 256]);
    record.set_word(0, word(record, 0).wrapping_add(more));
}

/// A record of a draft: often one of the last or the first, which a long table has few of.
fn any_of<'a>(random: &mut Random, draft: &'a mut Draft) -> &'a mut Record {
    let number = draft.records.len();
    let place = match random.below(6) {
        0 => 0,
        1 => number - 1,
        2 | 3 => number - 2,
        _ => random.below(number),
    };
    &mut draft.records[place]
}

/// The place of a word in a body.
fn any_word(random: &mut Random, record: &Record) -> usize {
    2 * random.below((record.body.len() / 2).max(1))
}

/// The word at a place of a body.
fn word(record: &Record, place: usize) -> u16 {
    u16::from_le_bytes([record.body[place], record.body[place + 1]])
}
