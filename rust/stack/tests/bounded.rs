//! The stack that each exported function can use by its compiled code is within the limit, and what
//! was measured is within what the code can use.

use stack::archive::{disassembled, linked};
use stack::chain::{chains, Chain};
use stack::exported::EXPORTED;
use stack::MOST_STACK;
use std::collections::BTreeMap;

/// The chains of the linked archive. Nothing in it may be such that it cannot be followed.
fn linked_chains() -> BTreeMap<String, Chain> {
    let found = disassembled(&linked()).map(|disassembly| chains(&disassembly));
    match found {
        Ok(Ok(chains)) => chains,
        Ok(Err(unfollowed)) => panic!("{unfollowed}"),
        Err(error) => panic!("{error}"),
    }
}

#[test]
fn all_exported_functions_are_known() {
    let exported: Vec<String> = linked_chains().into_keys().collect();
    let mut known = EXPORTED.map(|function| function.name);
    known.sort();
    assert_eq!(exported, known);
}

#[test]
fn every_exported_function_is_within_the_limit() {
    for (name, chain) in linked_chains() {
        let total = chain.total();
        println!("{name}: {total} bytes\n{chain}");
        assert!(total <= MOST_STACK, "{name}: {total} bytes\n{chain}");
    }
}

#[test]
fn no_call_uses_more_than_its_code_can() {
    let chains = linked_chains();
    for function in EXPORTED {
        let (painted, bounded) = (function.painted(), chains[function.name].total());
        let both = format!(
            "{}: {painted} measured, {bounded} by its code",
            function.name
        );
        println!("{both}");
        assert!(painted <= bounded, "{both}");
    }
}

#[test]
fn the_header_tells_the_limit() {
    let header = include_str!("../../../include/hainscope.h");
    let line = format!("#define HAINSCOPE_MOST_STACK {MOST_STACK}\n");
    assert!(header.contains(&line));
}
