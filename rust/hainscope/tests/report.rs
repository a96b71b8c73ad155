//! Reports: what is decoded from bytes, what is no report, and each sort of report in words.

use hainscope::{Report, Sought, Status};

/// A report's record: its words, little-endian.
fn record(words: &[u16]) -> Vec<u8> {
    words.iter().flat_map(|word| word.to_le_bytes()).collect()
}

#[test]
fn every_field_is_decoded() {
    let bytes = record(&[12, 17, 1, 0xBEEF, 0xDEAD, 2, 64, 1]);
    let report = Report {
        sought: Sought::Relaxation,
        status: Status::Conflict,
        count: 0xDEAD_BEEF,
        requests: vec![64, 1],
    };
    assert_eq!(Report::of_record(&bytes), Some(report));
}

#[test]
fn only_one_whole_record_is_a_report() {
    let whole = record(&[10, 16, 1, 2, 0, 1, 7]);
    assert!(Report::of_record(&whole).is_some());
    for length in 0..whole.len() {
        assert_eq!(Report::of_record(&whole[..length]), None, "{length} bytes");
    }
    assert_eq!(Report::of_record(&[&whole[..], &[0]].concat()), None);
    assert_eq!(Report::of_record(&[&whole[..], &whole].concat()), None);
    let odd = [&record(&[9, 16, 0, 1, 0, 0])[..], &[0]].concat();
    assert_eq!(Report::of_record(&odd), None);
}

#[test]
fn lengths_kinds_and_statuses_that_no_report_has() {
    for words in [
        [8, 16, 1, 2, 0, 1, 7],
        [12, 16, 1, 2, 0, 1, 7],
        [10, 16, 1, 2, 0, 0, 7],
        [10, 16, 1, 2, 0, 2, 7],
        [10, 15, 1, 2, 0, 1, 7],
        [10, 18, 1, 2, 0, 1, 7],
        [10, 16, 3, 2, 0, 1, 7],
    ] {
        assert_eq!(Report::of_record(&record(&words)), None, "{words:?}");
    }
}

/// A report in words.
fn line(sought: Sought, status: Status, count: u32, requests: &[u16]) -> String {
    let requests = requests.to_vec();
    Report {
        sought,
        status,
        count,
        requests,
    }
    .to_string()
}

#[test]
fn a_conflict_in_words() {
    let line = |status, count, requests| line(Sought::Conflict, status, count, requests);
    assert_eq!(
        line(Status::AllCanStand, 1, &[]),
        "all requests can stand together (1 question)"
    );
    assert_eq!(
        line(Status::Conflict, 2, &[7]),
        "request 7 cannot stand beside the host's rows (preferred conflict, 2 questions)"
    );
    assert_eq!(
        line(Status::Conflict, 4, &[2, 1]),
        "requests 2 and 1 cannot stand together (preferred conflict, 4 questions)"
    );
    assert_eq!(
        line(Status::Conflict, 30, &[64, 2, 4, 3]),
        "requests 64, 2, 4 and 3 cannot stand together (preferred conflict, 30 questions)"
    );
    assert_eq!(
        line(Status::HostCannotStand, 2, &[]),
        "the host's own rows cannot stand (2 questions)"
    );
}

#[test]
fn a_relaxation_in_words() {
    let line = |status, count, requests| line(Sought::Relaxation, status, count, requests);
    assert_eq!(
        line(Status::AllCanStand, 1, &[]),
        "there are no requests, and the host's rows can stand (1 question)"
    );
    assert_eq!(
        line(Status::AllCanStand, 1, &[1]),
        "the only request can stand (1 question)"
    );
    assert_eq!(
        line(Status::AllCanStand, 1, &[2, 4, 1, 3]),
        "all 4 requests can stand together (1 question)"
    );
    assert_eq!(
        line(Status::Conflict, 2, &[]),
        "no request can stand beside the host's rows (preferred relaxation, 2 questions)"
    );
    assert_eq!(
        line(Status::Conflict, 3, &[5]),
        "request 5 can stand, and no better set can (preferred relaxation, 3 questions)"
    );
    assert_eq!(
        line(Status::Conflict, 4, &[2, 4, 1]),
        "requests 2, 4 and 1 can stand together, and no better set can \
         (preferred relaxation, 4 questions)"
    );
    assert_eq!(
        line(Status::HostCannotStand, 1, &[]),
        "the host's own rows cannot stand (1 question)"
    );
}
