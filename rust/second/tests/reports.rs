//! The report's bytes: the record of H, what stays in the buffer, and the room that is asked for.

use made::sheet::h;
use second::methods::{Method, Sought};
use second::refusal::Refusal;
use second::report::report;

#[test]
fn the_record_of_h() {
    let mut buffer = [0xEE; 30];
    let place = report(&h(), Sought::Conflict, Method::Halving, &mut buffer, 3);
    assert_eq!(place, Ok(21));
    let record = [14, 0, 16, 0, 1, 0, 8, 0, 0, 0, 3, 0, 2, 0, 4, 0, 3, 0];
    assert_eq!(buffer[..3], [0xEE; 3]);
    assert_eq!(buffer[3..21], record);
    assert_eq!(buffer[21..], [0xEE; 9]);
}

#[test]
fn room_is_asked_for_all_requests() {
    for (length, start, accepted) in [
        (20, 0, true),
        (19, 0, false),
        (25, 5, true),
        (24, 5, false),
        (20, 21, false),
        (20, usize::MAX, false),
        (0, 0, false),
    ] {
        let mut buffer = vec![7; length];
        let place = report(
            &h(),
            Sought::Relaxation,
            Method::OneByOne,
            &mut buffer,
            start,
        );
        match accepted {
            true => assert_eq!(place, Ok(start + 18)),
            false => {
                assert_eq!(place, Err(Refusal::new(12, 0)));
                assert_eq!(buffer, vec![7; length]);
            }
        }
    }
}

#[test]
fn a_wrong_table_is_refused_before_the_room() {
    let mut buffer = [1; 4];
    let place = report(&[1, 2], Sought::Conflict, Method::Halving, &mut buffer, 9);
    assert_eq!(place, Err(Refusal::new(2, 0)));
    assert_eq!(buffer, [1; 4]);
}
