//! All made tables mixed: table number `seed` of an endless stream, with the way it was made.
//! Valid ones, damaged ones with and without a mended CHECK word, too long ones, too many rows.

use crate::damage;
use crate::draft::{mended, Draft};
use crate::events::{any, budget, Sizes, LARGE, MIDDLE, SMALL, WHOLE};
use crate::full;
use crate::random::Random;

/// A made table.
#[derive(Clone, Debug)]
pub struct Made {
    /// The seed it was made from.
    pub seed: u64,
    /// How it was made.
    pub way: &'static str,
    /// Its bytes.
    pub table: Vec<u8>,
}

/// The table of a seed.
pub fn made(seed: u64) -> Made {
    let mut random = Random::new(seed);
    let (way, table) = match random.below(100) {
        0..=1 => ("too long", too_long(&mut random)),
        2..=5 => ("about 512 rows", about_512_rows(&mut random)),
        6..=30 => ("valid", valid(&mut random).mended()),
        31 => ("valid and as long as can be", longest(&mut random)),
        _ => damaged(&mut random),
    };
    Made { seed, way, table }
}

/// A valid draft of any size.
fn valid(random: &mut Random) -> Draft {
    let shapes: [Sizes; 8] = [SMALL, SMALL, SMALL, SMALL, SMALL, MIDDLE, LARGE, WHOLE];
    let plan = match random.below(5) {
        0 => budget(random, 8, 12),
        _ => {
            let sizes = random.pick(&shapes);
            any(random, sizes)
        }
    };
    plan.draft()
}

/// A damaged table and how it was damaged.
fn damaged(random: &mut Random) -> (&'static str, Vec<u8>) {
    let draft = valid(random);
    let mend = random.chance(3, 4);
    let written = |draft: Draft| {
        if mend {
            draft.mended()
        } else {
            draft.bytes()
        }
    };
    match random.below(9) {
        0 => ("bytes changed", damage::bytes(random, draft.mended())),
        1 => (
            "bytes changed and mended",
            mended(damage::bytes(random, draft.mended())),
        ),
        2 => ("cut", damage::cut(random, draft.mended())),
        3 => ("lengthened", damage::lengthened(random, draft.mended())),
        4 => ("sequence", written(damage::sequence(random, draft))),
        5 => ("length", written(damage::length(random, draft))),
        6 => ("kind", written(damage::kind(random, draft))),
        _ => ("field", written(damage::field(random, draft))),
    }
}

/// More than 32,768 bytes, right or wrong otherwise.
fn too_long(random: &mut Random) -> Vec<u8> {
    let over = 1 + random.below(300);
    if random.chance(1, 2) {
        return full::of_bytes(random, 32_768 + 2 * over).table();
    }
    let mut table = valid(random).mended();
    table.resize(32_768 + over, 0);
    table
}

/// Exactly 32,768 bytes, or a few fewer.
fn longest(random: &mut Random) -> Vec<u8> {
    let fewer = random.pick(&[0, 0, 2, 4, 100]);
    full::of_bytes(random, 32_768 - fewer).table()
}

/// 511 to 514 rows, in some cases with damage.
fn about_512_rows(random: &mut Random) -> Vec<u8> {
    let rows = 511 + random.below(4);
    let draft = full::of_rows(random, rows).draft();
    match random.below(4) {
        0 => damage::length(random, draft).mended(),
        1 => damage::field(random, draft).mended(),
        _ => draft.mended(),
    }
}
