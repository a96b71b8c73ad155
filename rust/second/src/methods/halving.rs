//! Halving, below the common start: parts cut into the first floor(n/2) requests and the rest
//! (document 01, "The two methods and their counts"). C1, C2 and D2 are the document's names.

use super::Questions;
use crate::selection::{only, selection_of, Selection, NONE};

/// The conflict of the whole order. "The first part's ground was asked at the start and is not
/// asked again", so its last addition counts as empty.
pub fn conflict(order: &[u16], questions: &mut Questions) -> Selection {
    conflict_of_part(order, NONE, NONE, questions)
}

/// What a part gives on a ground, `addition` being what was added to the ground last.
fn conflict_of_part(
    part: &[u16],
    ground: Selection,
    addition: Selection,
    questions: &mut Questions,
) -> Selection {
    if addition != NONE && !questions.ask(ground) {
        return NONE;
    }
    if let [request] = part {
        return only(*request);
    }
    let (c1, c2) = part.split_at(part.len() / 2);
    let all_of_c1 = selection_of(c1);
    let d2 = conflict_of_part(c2, ground | all_of_c1, all_of_c1, questions);
    let d1 = conflict_of_part(c1, ground | d2, d2, questions);
    d1 | d2
}

/// The relaxation of the whole order, which the start has shown not to stand whole.
pub fn relaxation(order: &[u16], questions: &mut Questions) -> Selection {
    relaxation_of_part(order, NONE, questions)
}

/// What is kept of "a part known not to stand whole" on a ground.
fn relaxation_of_part(part: &[u16], ground: Selection, questions: &mut Questions) -> Selection {
    if part.len() == 1 {
        return NONE;
    }
    let (c1, c2) = part.split_at(part.len() / 2);
    let (all_of_c1, all_of_c2) = (selection_of(c1), selection_of(c2));
    if questions.ask(ground | all_of_c1) {
        let kept_of_c2 = relaxation_of_part(c2, ground | all_of_c1, questions);
        return all_of_c1 | kept_of_c2;
    }
    let kept_of_c1 = relaxation_of_part(c1, ground, questions);
    let ground = ground | kept_of_c1;
    if questions.ask(ground | all_of_c2) {
        return kept_of_c1 | all_of_c2;
    }
    kept_of_c1 | relaxation_of_part(c2, ground, questions)
}
