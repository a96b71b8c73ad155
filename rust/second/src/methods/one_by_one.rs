//! One by one, below the common start: N questions, one a request
//! (document 01, "The two methods and their counts").

use super::Questions;
use crate::selection::{only, selection_of, Selection, NONE};

/// "from cN to c1, ask what is left without this request, and remove it if that cannot stand"
pub fn conflict(order: &[u16], questions: &mut Questions) -> Selection {
    let mut left = selection_of(order);
    for request in order.iter().rev() {
        let without = left & !only(*request);
        if !questions.ask(without) {
            left = without;
        }
    }
    left
}

/// "from c1 to cN, ask with this request added, and keep it if that can stand"
pub fn relaxation(order: &[u16], questions: &mut Questions) -> Selection {
    let mut kept = NONE;
    for request in order {
        let with = kept | only(*request);
        if questions.ask(with) {
            kept = with;
        }
    }
    kept
}
