//! What no processor may have: each case is written for both.

use super::{printed, why, Code};
use stack::disassembly::Disassembly;

/// A case of both processors, by the names of their file formats.
fn both(x86_64: &[Code], aarch64: &[Code]) -> [String; 2] {
    [
        why("elf64-x86-64", x86_64),
        why("elf64-littleaarch64", aarch64),
    ]
}

/// A case with the exported function only.
fn alone(x86_64: &[&str], aarch64: &[&str]) -> [String; 2] {
    both(
        &[("hainscope_made", x86_64)],
        &[("hainscope_made", aarch64)],
    )
}

#[test]
fn a_call_through_a_register_or_memory() {
    let refused = ["a call that cannot be followed"; 2];
    assert_eq!(
        alone(&["call   *%rax", "ret"], &["blr\tx8", "ret"]),
        refused
    );
    assert_eq!(
        alone(&["call   *0x8(%rax)", "ret"], &["blraaz\tx8", "ret"]),
        refused
    );
    let jump = why(
        "elf64-x86-64",
        &[("hainscope_made", &["jmp    *0x0(,%rax,8)"])],
    );
    assert_eq!(jump, "a jump that cannot be followed");
}

#[test]
fn an_unknown_function_of_a_library() {
    let found = alone(
        &["call   4 <made>", "R_X86_64_PLT32\tprintf-0x4", "ret"],
        &["bl\t0 <printf>", "R_AARCH64_CALL26\tprintf", "ret"],
    );
    assert_eq!(
        found,
        ["a call of an unknown function outside of the archive"; 2]
    );
}

#[test]
fn a_function_that_calls_itself() {
    let found = alone(
        &["call   0 <hainscope_made>", "ret"],
        &["bl\t0 <hainscope_made>", "ret"],
    );
    assert_eq!(
        found,
        ["a function that calls itself, nobody knows how often"; 2]
    );
    let by_relocation = alone(
        &[
            "call   4 <made>",
            "R_X86_64_PLT32\t.text.hainscope_made-0x4",
            "ret",
        ],
        &[
            "bl\t0 <made>",
            "R_AARCH64_CALL26\t.text.hainscope_made",
            "ret",
        ],
    );
    assert_eq!(by_relocation, found);
}

#[test]
fn functions_that_call_each_other() {
    let found = both(
        &[
            (
                "hainscope_made",
                &["call   4 <made>", "R_X86_64_PLT32\tmade::other-0x4", "ret"],
            ),
            (
                "made::other",
                &["jmp    4 <made>", "R_X86_64_PLT32\thainscope_made-0x4"],
            ),
        ],
        &[
            (
                "hainscope_made",
                &["bl\t0 <made>", "R_AARCH64_CALL26\tmade::other", "ret"],
            ),
            (
                "made::other",
                &["b\t0 <made>", "R_AARCH64_JUMP26\thainscope_made"],
            ),
        ],
    );
    assert_eq!(found, ["functions that call each other in a circle"; 2]);
}

#[test]
fn different_depths_at_one_place() {
    let found = alone(
        &[
            "je     8 <hainscope_made+0x8>",
            "push   %rbx",
            "jmp    8 <hainscope_made+0x8>",
        ],
        &[
            "cbz\tx0, 8 <hainscope_made+0x8>",
            "sub\tsp, sp, #0x10",
            "b\t8 <hainscope_made+0x8>",
        ],
    );
    assert_eq!(found, ["reached with different depths"; 2]);
}

#[test]
fn a_way_that_leaves_the_function() {
    let past = alone(&["nop"], &["nop"]);
    assert_eq!(past, ["the function's end is passed"; 2]);
    let returns = alone(&["push   %rbx", "ret"], &["sub\tsp, sp, #0x10", "ret"]);
    assert_eq!(returns, ["a return that does not find its address"; 2]);
    let above = alone(&["pop    %rbx", "ret"], &["add\tsp, sp, #0x10", "ret"]);
    assert_eq!(above, ["more is given back than was taken"; 2]);
    let elsewhere = alone(&["jmp    2 <made>"], &["b\t2 <made>"]);
    assert_eq!(elsewhere, ["leads to no function's beginning"; 2]);
    let middle = alone(
        &["call   4 <made>", "R_X86_64_PLT32\thainscope_made", "ret"],
        &[
            "bl\t4 <made>",
            "R_AARCH64_CALL26\thainscope_made+0x4",
            "ret",
        ],
    );
    assert_eq!(middle, ["leads to no function's beginning"; 2]);
    let outside = alone(
        &["call   4 <made>", "R_X86_64_PLT32\tmemset", "ret"],
        &["bl\t4 <made>", "R_AARCH64_CALL26\tmemset+0x4", "ret"],
    );
    assert_eq!(outside, ["a place in an unknown function"; 2]);
    let kind = alone(
        &["call   4 <made>", "R_X86_64_GOTPCRELX\tmemset-0x4", "ret"],
        &["bl\t4 <made>", "R_AARCH64_ABS64\tmemset", "ret"],
    );
    assert_eq!(
        kind,
        ["a relocation that is not known for a call or a jump"; 2]
    );
}

#[test]
fn text_that_is_no_disassembly() {
    let why = |text: &str| Disassembly::read(text).expect_err("refused").why;
    let right = printed("elf64-x86-64", &[("hainscope_made", &["ret"])]);
    assert!(Disassembly::read(&right).is_ok());
    let line = "a line that is not understood";
    assert_eq!(why(""), line);
    assert_eq!(why(&right.replace("x86-64", "big")), line);
    assert_eq!(why(&right.replace(":\tret", " ret")), line);
    assert_eq!(why(&format!("{right}\t...\n")), line);
    assert_eq!(why(&format!("{right}   0:\tret\n")), line);
    let other = printed("elf64-littleaarch64", &[("made::other", &["ret"])]);
    assert_eq!(why(&format!("{right}{other}")), line);
    assert_eq!(
        why(&format!("{right}{right}")),
        "two functions of one name or at one place"
    );
}
