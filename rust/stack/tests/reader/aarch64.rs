//! Code of aarch64.

use super::Code;

/// A function with a frame of 48 bytes.
const LEAF: Code = (
    "made::leaf",
    &["str\tx23, [sp, #-48]!", "ldr\tx23, [sp], #48", "ret"],
);

/// Frames of known sizes.
const FRAMES: [(usize, &[&str]); 6] = [
    (0, &["ret"]),
    (48, LEAF.1),
    (
        0x120,
        &[
            "sub\tsp, sp, #0x120",
            "stp\tx29, x30, [sp, #208]",
            "add\tsp, sp, #0x120",
            "ret",
        ],
    ),
    (
        0x1010,
        &[
            "sub\tsp, sp, #0x1, lsl #12",
            "sub\tsp, sp, #0x10",
            "add\tsp, sp, #0x10",
            "add\tsp, sp, #0x1, lsl #12",
            "ret",
        ],
    ),
    // The frame pointer finds the saved registers again.
    (
        96,
        &[
            "stp\tx29, x30, [sp, #-32]!",
            "str\tx19, [sp, #16]",
            "mov\tx29, sp",
            "sub\tsp, sp, #0x40",
            "str\txzr, [sp]",
            "mov\tsp, x29",
            "ldp\tx29, x30, [sp], #32",
            "ret",
        ],
    ),
    // The same with the frame pointer above the stack pointer.
    (
        80,
        &[
            "sub\tsp, sp, #0x30",
            "stp\tx29, x30, [sp, #32]",
            "add\tx29, sp, #0x20",
            "sub\tsp, sp, #0x20",
            "sub\tsp, x29, #0x20",
            "ldp\tx29, x30, [sp, #32]",
            "add\tsp, sp, #0x30",
            "ret",
        ],
    ),
];

/// The total of functions that can be followed.
fn total(functions: &[Code]) -> usize {
    let found = super::total("elf64-littleaarch64", functions);
    found.unwrap_or_else(|unfollowed| panic!("{unfollowed}"))
}

/// Why an exported function is refused.
fn why(lines: &[&str]) -> String {
    super::why("elf64-littleaarch64", &[("hainscope_made", lines), LEAF])
}

#[test]
fn a_frame_has_its_size() {
    for (bytes, lines) in FRAMES {
        assert_eq!(total(&[("hainscope_made", lines)]), bytes, "{lines:?}");
    }
}

#[test]
fn a_call_is_followed() {
    for relocation in [
        "R_AARCH64_CALL26\tmade::leaf",
        "R_AARCH64_CALL26\t.text.made::leaf",
    ] {
        let lines = [
            "sub\tsp, sp, #0x10",
            "bl\t0 <hainscope_made>",
            relocation,
            "add\tsp, sp, #0x10",
            "ret",
        ];
        assert_eq!(total(&[("hainscope_made", &lines), LEAF]), 16 + 48);
        assert_eq!(total(&[LEAF, ("hainscope_made", &lines)]), 16 + 48);
    }
}

#[test]
fn a_jump_into_another_function_is_followed_from_an_empty_frame() {
    let jump = ["b\t0 <made::leaf>", "R_AARCH64_JUMP26\tmade::leaf"];
    assert_eq!(total(&[("hainscope_made", &jump), LEAF]), 48);
    let lines = [&["sub\tsp, sp, #0x10"], jump.as_slice()].concat();
    assert_eq!(why(&lines), "a jump that leaves a frame on the stack");
}

#[test]
fn a_call_of_memset_has_its_allowance() {
    let lines = [
        "str\tx30, [sp, #-16]!",
        "bl\t0 <memset>",
        "R_AARCH64_CALL26\tmemset",
        "ldr\tx30, [sp], #16",
        "ret",
    ];
    assert_eq!(total(&[("hainscope_made", &lines)]), 16 + 256);
}

#[test]
fn halving_has_seven_frames() {
    let name = "explain::halving::halve_relaxation";
    let call = [
        "b\t0 <made>",
        "R_AARCH64_JUMP26\texplain::halving::halve_relaxation",
    ];
    let halve = [
        "str\tx30, [sp, #-16]!",
        "bl\t0 <explain::halving::halve_relaxation>",
        "ldr\tx30, [sp], #16",
        "ret",
    ];
    assert_eq!(total(&[("hainscope_made", &call), (name, &halve)]), 7 * 16);
}

#[test]
fn a_jump_table_leads_to_what_nothing_else_reaches() {
    let lines = [
        "str\tx30, [sp, #-16]!",
        "br\tx8",
        "sub\tsp, sp, #0x20",
        "add\tsp, sp, #0x20",
        "ldr\tx30, [sp], #16",
        "ret",
        "nop",
        "bl\t0 <made>",
        "R_AARCH64_CALL26\tmade::leaf",
        "b\t10 <hainscope_made+0x10>",
    ];
    assert_eq!(total(&[("hainscope_made", &lines[..7])]), 16 + 0x20);
    assert_eq!(total(&[("hainscope_made", &lines), LEAF]), 16 + 48);
    assert_eq!(
        why(&lines[1..6]),
        "a jump that may lead into another function"
    );
}

#[test]
fn what_writes_the_stack_pointer_unknown_is_refused() {
    for line in [
        "sub\tsp, sp, x8",
        "mov\tsp, x8",
        "and\tsp, x9, #0xffffffffffffffe0",
        "add\twsp, wsp, #0x10",
        "addvl\tsp, sp, #-1",
        "ld1\t{v0.16b}, [sp], x1",
        "ldr\tx0, [sp, x1]!",
    ] {
        let found = why(&[line, "ret"]);
        assert!(
            found.starts_with("the stack pointer is written"),
            "{line}: {found}"
        );
    }
}

#[test]
fn an_unknown_frame_pointer_is_refused() {
    for line in ["mov\tsp, x29", "sub\tsp, x29, #0x10"] {
        assert_eq!(
            why(&[line, "ret"]),
            "a frame pointer that is not known",
            "{line}"
        );
    }
    let lost = ["mov\tx29, sp", "mov\tx29, x0", "mov\tsp, x29", "ret"];
    assert_eq!(why(&lost), "a frame pointer that is not known");
}

#[test]
fn an_unknown_instruction_is_refused() {
    assert_eq!(
        why(&["stur\tx0, [sp, #-8]", "ret"]),
        "an access below the stack pointer"
    );
    for line in [
        "ret\tx5",
        "retaa",
        "svc\t#0x0",
        "braa\tx0, x1",
        "cbgt\tx0, x1, 4 <made+0x4>",
    ] {
        assert_eq!(
            why(&[line, "ret"]),
            "an instruction that is not known",
            "{line}"
        );
    }
}

#[test]
fn what_only_reads_the_stack_pointer_is_none() {
    for line in [
        "mov\tx4, sp",
        "add\tx0, sp, #0x80",
        "str\txzr, [sp, x9]",
        "ldp\tx8, x10, [sp, #32]",
    ] {
        assert_eq!(total(&[("hainscope_made", &[line, "ret"])]), 0, "{line}");
    }
}
