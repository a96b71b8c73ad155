//! Selections: request numbers and bits, both ways, and the numbers that no selection has.

use hainscope::Selection;
use std::panic::catch_unwind;

/// Bits of some selections, among them none, all, and both ends.
const BITS: [u64; 7] = [
    0,
    1,
    1 << 63,
    1 | 1 << 63,
    u64::MAX,
    0x0123_4567_89AB_CDEF,
    !0x0123_4567_89AB_CDEF,
];

#[test]
fn numbers_and_bits_are_the_same_selection() {
    for bits in BITS {
        let selection = Selection::from_bits(bits);
        let numbers: Vec<u16> = (1..=64).filter(|r| bits >> (r - 1) & 1 == 1).collect();
        assert_eq!(selection.requests().collect::<Vec<u16>>(), numbers);
        assert_eq!(selection.len(), numbers.len());
        assert_eq!(selection.is_empty(), bits == 0);
        for request in 0..=u16::MAX {
            assert_eq!(selection.holds(request), numbers.contains(&request));
        }
        let turned: Vec<u16> = numbers.iter().rev().copied().collect();
        assert_eq!(Selection::of(&turned), Some(selection));
        assert_eq!(turned.into_iter().collect::<Selection>(), selection);
    }
}

#[test]
fn a_request_named_twice_is_in_it_once() {
    assert_eq!(Selection::of(&[5, 5]), Selection::of(&[5]));
    assert_eq!([7, 7].into_iter().collect::<Selection>().len(), 1);
}

#[test]
fn no_selection_has_request_0_or_a_request_above_64() {
    for request in [0, 65, 128, u16::MAX] {
        assert_eq!(Selection::of(&[1, request]), None);
        let collected = catch_unwind(|| [1, request].into_iter().collect::<Selection>());
        let words = collected.expect_err("no such selection");
        let words = words.downcast::<String>().expect("a message");
        assert_eq!(*words, format!("request {request} is not one of 1 to 64"));
    }
}

#[test]
fn a_selection_is_written_from_the_lowest_number_up() {
    let written = |requests: &[u16]| Selection::of(requests).map(|some| some.to_string());
    assert_eq!(written(&[]).as_deref(), Some("none"));
    assert_eq!(written(&[64]).as_deref(), Some("64"));
    assert_eq!(written(&[10, 9, 1]).as_deref(), Some("1 9 10"));
    assert_eq!(format!("{:>6}", Selection::NONE), "  none");
}
