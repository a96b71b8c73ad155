//! Code of x86-64.

use super::Code;

/// What an exported function has besides its frame: the return address and the red zone.
const BESIDES: usize = 8 + 128;
/// A function with a frame of 56 bytes.
const LEAF: Code = (
    "made::leaf",
    &["sub    $0x38,%rsp", "add    $0x38,%rsp", "ret"],
);

/// Frames of known sizes.
const FRAMES: [(usize, &[&str]); 6] = [
    (0, &["ret"]),
    (0x38, LEAF.1),
    (
        24,
        &[
            "push   %rbx",
            "sub    $0x10,%rsp",
            "lea    0x10(%rsp),%rsp",
            "pop    %rbx",
            "ret",
        ],
    ),
    // 8 of the frame pointer, at most 24 to come to a multiple of 32, and 64.
    (
        96,
        &[
            "push   %rbp",
            "mov    %rsp,%rbp",
            "and    $0xffffffffffffffe0,%rsp",
            "sub    $0x40,%rsp",
            "leave",
            "ret",
        ],
    ),
    // Two pushes below the frame pointer, which finds them again.
    (
        8 + 16 + 128,
        &[
            "push   %rbp",
            "mov    %rsp,%rbp",
            "push   %r15",
            "push   %r14",
            "add    $0xffffffffffffff80,%rsp",
            "lea    -0x10(%rbp),%rsp",
            "pop    %r14",
            "pop    %r15",
            "pop    %rbp",
            "ret",
        ],
    ),
    // The deeper branch counts.
    (
        16,
        &[
            "test   %rdi,%rdi",
            "je     14 <hainscope_made+0x14>",
            "push   %rbx",
            "push   %rbx",
            "add    $0x10,%rsp",
            "ret",
        ],
    ),
];

/// The total of functions that can be followed.
fn total(functions: &[Code]) -> usize {
    super::total("elf64-x86-64", functions).unwrap_or_else(|unfollowed| panic!("{unfollowed}"))
}

/// Why an exported function is refused.
fn why(lines: &[&str]) -> String {
    super::why("elf64-x86-64", &[("hainscope_made", lines), LEAF])
}

#[test]
fn a_frame_has_its_size() {
    for (bytes, lines) in FRAMES {
        assert_eq!(
            total(&[("hainscope_made", lines)]),
            BESIDES + bytes,
            "{lines:?}"
        );
    }
}

#[test]
fn a_call_is_followed() {
    let expected = 8 + 16 + BESIDES + 0x38;
    for relocation in [
        "R_X86_64_PLT32\tmade::leaf-0x4",
        "R_X86_64_PC32\t.text.made::leaf-0x4",
    ] {
        let lines = [
            "sub    $0x10,%rsp",
            "call   8 <hainscope_made+0x8>",
            relocation,
            "add    $0x10,%rsp",
            "ret",
        ];
        assert_eq!(total(&[("hainscope_made", &lines), LEAF]), expected);
        assert_eq!(total(&[LEAF, ("hainscope_made", &lines)]), expected);
    }
}

#[test]
fn a_jump_into_another_function_is_followed_from_an_empty_frame() {
    let jump = [
        "jmp    4 <hainscope_made+0x4>",
        "R_X86_64_PLT32\tmade::leaf-0x4",
    ];
    assert_eq!(total(&[("hainscope_made", &jump), LEAF]), BESIDES + 0x38);
    let lines = [&["push   %rbx"], jump.as_slice()].concat();
    assert_eq!(why(&lines), "a jump that leaves a frame on the stack");
}

#[test]
fn a_call_of_memset_has_its_allowance() {
    let lines = [
        "push   %rbx",
        "call   8 <hainscope_made+0x8>",
        "R_X86_64_PLT32\tmemset-0x4",
        "pop    %rbx",
        "ret",
    ];
    assert_eq!(total(&[("hainscope_made", &lines)]), 8 + 8 + 256);
}

#[test]
fn halving_has_seven_frames() {
    let name = "explain::halving::halve_conflict";
    let call = [
        "call   0 <made>",
        "R_X86_64_PLT32\texplain::halving::halve_conflict-0x4",
        "ret",
    ];
    let halve = [
        "push   %rbx",
        "call   0 <explain::halving::halve_conflict>",
        "pop    %rbx",
        "ret",
    ];
    let found = total(&[("hainscope_made", &call), (name, &halve)]);
    assert_eq!(found, 8 + 7 * (8 + 8) + 128);
}

#[test]
fn a_jump_table_leads_to_what_nothing_else_reaches() {
    let lines = [
        "push   %rbx",
        "notrack jmp *%rax",
        "nopw   0x0(%rax,%rax,1)",
        "sub    $0x20,%rsp",
        "add    $0x20,%rsp",
        "pop    %rbx",
        "ret",
        "data16 cs nopw 0x0(%rax,%rax,1)",
        "call   0 <made>",
        "R_X86_64_PLT32\tmade::leaf-0x4",
        "pop    %rbx",
        "ret",
    ];
    assert_eq!(
        total(&[("hainscope_made", &lines[..8])]),
        BESIDES + 8 + 0x20
    );
    assert_eq!(
        total(&[("hainscope_made", &lines), LEAF]),
        16 + BESIDES + 0x38
    );
    assert_eq!(
        why(&lines[1..]),
        "a jump that may lead into another function"
    );
    assert_eq!(
        why(&["push   %rbx", "jmp    *%rax", "ret"]),
        "a return that does not find its address"
    );
}

#[test]
fn a_jump_table_is_refused_where_its_depth_is_not_sure() {
    let frame_pointer = [
        "push   %rbp",
        "mov    %rsp,%rbp",
        "je     10 <hainscope_made+0x10>",
        "jmp    *%rax",
        "leave",
        "ret",
        "pop    %rbp",
        "ret",
    ];
    let stopped = ["push   %rbx", "jmp    *%rax", "ud2"];
    for lines in [frame_pointer.as_slice(), &stopped] {
        let found = why(lines);
        assert_eq!(found, "not known to be sure beside a jump through a table");
    }
    let two_tables = [
        "push   %rbx",
        "je     c <hainscope_made+0xc>",
        "jmp    *%rax",
        "push   %rbx",
        "jmp    *%rax",
    ];
    let found = why(&two_tables);
    assert_eq!(found, "jumps through tables with different depths");
}

#[test]
fn what_writes_the_stack_pointer_unknown_is_refused() {
    for line in [
        "sub    %rax,%rsp",
        "mov    %rax,%rsp",
        "mov    0x8(%rdi),%rsp",
        "lea    0x8(%rsp,%rax,8),%rsp",
        "and    $0xffffffffffffffe1,%rsp",
        "xchg   %rax,%rsp",
        "xchg   %rsp,%rax",
        "add    $0x8,%esp",
        "neg    %rsp",
    ] {
        let found = why(&[line, "ret"]);
        assert!(
            found.starts_with("the stack pointer is "),
            "{line}: {found}"
        );
    }
}

#[test]
fn an_unknown_instruction_is_refused() {
    for line in [
        "pop    %rsp",
        "pushf",
        "enter  $0x10,$0x0",
        "ret    $0x8",
        "syscall",
        "(bad)",
    ] {
        assert_eq!(
            why(&[line, "ret"]),
            "an instruction that is not known",
            "{line}"
        );
    }
}

#[test]
fn an_unknown_frame_pointer_is_refused() {
    for line in ["mov    %rbp,%rsp", "lea    -0x10(%rbp),%rsp", "leave"] {
        assert_eq!(
            why(&[line, "ret"]),
            "a frame pointer that is not known",
            "{line}"
        );
    }
    let lost = [
        "push   %rbp",
        "mov    %rsp,%rbp",
        "mov    %rdi,%rbp",
        "leave",
        "ret",
    ];
    assert_eq!(why(&lost), "a frame pointer that is not known");
    let known_one_way = [
        "push   %rbp",
        "je     10 <hainscope_made+0x10>",
        "mov    %rsp,%rbp",
        "jmp    14 <hainscope_made+0x14>",
        "nop",
        "leave",
        "ret",
    ];
    assert_eq!(why(&known_one_way), "a frame pointer that is not known");
}

#[test]
fn what_only_reads_the_stack_pointer_is_none() {
    for line in [
        "mov    %rsp,%rdi",
        "add    %rsp,%rcx",
        "lea    0x8(%rsp),%rdi",
        "cmp    %rsp,%rax",
    ] {
        assert_eq!(
            total(&[("hainscope_made", &[line, "ret"])]),
            BESIDES,
            "{line}"
        );
    }
}
