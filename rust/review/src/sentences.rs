//! Sentences that the words and the pages have in common.

/// All of so many plug-ins can stand.
pub fn all_can_stand(plug_ins: usize) -> String {
    match plug_ins {
        0 => "There are no plug-ins, and the host's rows can stand.".to_string(),
        1 => "The only plug-in can stand.".to_string(),
        _ => format!("All {plug_ins} plug-ins can stand together."),
    }
}

/// No set of plug-ins can stand, not even that of none.
pub const HOST_CANNOT_STAND: &str = "The host's own rows cannot stand, so no set of plug-ins can.";

/// That each of a conflict's plug-ins is needed for the failure. A preferred conflict is minimal, which
/// is proved: `preferred-conflict-is-minimal`.
pub fn needed(plug_ins: usize) -> &'static str {
    match plug_ins {
        1 => "It is needed for the failure: without it, the host's rows can stand.",
        2 => "Each of them is needed for the failure: either can stand without the other.",
        _ => {
            "Each of them is needed for the failure: without any one of them, the rest of them can stand."
        }
    }
}
