//! The stack that each exported function was seen to use is within the limit.

use stack::exported::EXPORTED;
use stack::painted::used;
use stack::MOST_STACK;
use std::hint::black_box;

/// A question keeps the places of 512 rows on the stack, and every report asks one: a measure below
/// this measures nothing.
const LEAST_OF_A_QUESTION: usize = 1000;

/// The measured stack of an exported function is between this and the limit.
fn within(name: &str, least: usize) {
    let found = EXPORTED.iter().find(|function| function.name == name);
    let painted = found.expect("an exported function").painted();
    println!("{name}: {painted} bytes");
    assert!(painted >= least, "{name}: {painted} bytes are too few");
    assert!(painted <= MOST_STACK, "{name}: {painted} bytes");
}

#[test]
fn read() {
    within("hainscope_read", 32);
}

#[test]
fn body() {
    within("hainscope_body", 32);
}

#[test]
fn can_stand() {
    within("hainscope_can_stand", LEAST_OF_A_QUESTION);
}

#[test]
fn conflict() {
    within("hainscope_conflict", LEAST_OF_A_QUESTION);
}

#[test]
fn conflict_one_by_one() {
    within("hainscope_conflict_one_by_one", LEAST_OF_A_QUESTION);
}

#[test]
fn relaxation() {
    within("hainscope_relaxation", LEAST_OF_A_QUESTION);
}

#[test]
fn relaxation_one_by_one() {
    within("hainscope_relaxation_one_by_one", LEAST_OF_A_QUESTION);
}

/// A call that fills so many bytes of its own frame.
#[inline(never)]
fn fill<const BYTES: usize>() {
    black_box(&mut [0u8; BYTES]);
}

#[test]
fn the_measure_sees_what_a_call_takes() {
    let [small, large] = [used(fill::<1000>), used(fill::<5000>)];
    assert!((1000..1200).contains(&small), "{small}");
    assert!((3900..4100).contains(&(large - small)), "{small} {large}");
    assert!(used(|| ()) < 200);
}
