//! The summaries of statements. A line `statements N` begins one of at most so many; each other line has `ok`, `error` or `unanswered`, rows,
//! bytes, nanoseconds or `-`, and the statement, `..` before it if it is not whole.
use super::text;
use crate::cqlp_note::OfStd;
use crate::cqlp_capture_summary::{Fingerprint, Occurrence, Summary};
use crate::cqlp_text::TextWriter;
use crate::heap::refusing;

#[test]
fn what_summaries_say() {
    let lines = text("summaries/lines.txt");
    let (mut summary, mut said) = (begun(0), String::new());
    for line in lines.lines() {
        match line.strip_prefix("statements ") {
            Some(count) => {
                said += &written(&summary);
                summary = begun(count.parse().unwrap());
            }
            None => summary.note_request(&occurrence_of(line), !line.starts_with("unanswered"), None),
        }
    }
    said += &written(&summary);
    assert_eq!(said, text("summaries/said.txt"));
}

/// Each second line of fingerprints.txt is the fingerprint of the line before it.
#[test]
fn what_fingerprints_are() {
    let lines = text("summaries/fingerprints.txt");
    let lines: Vec<&str> = lines.lines().collect();
    for pair in lines.chunks(2) {
        let fingerprint = Fingerprint::new(pair[0].as_bytes(), true);
        assert_eq!((String::from_utf8_lossy(fingerprint.as_slice()), fingerprint.is_whole()), (pair[1].into(), true));
    }
    assert_eq!(lines.len(), 40);
}

/// Statements that are counted by their fingerprints, each twice, one of them whole and with more than the 256 bytes that are kept.
#[test]
fn what_is_counted_by_fingerprints() {
    let lines = text("summaries/fingerprints.txt");
    let lines: Vec<&str> = lines.lines().collect();
    let long = format!("SELECT c FROM ks.t WHERE k = '{}'", "x".repeat(300));
    let mut pairs: Vec<(&str, &str)> = lines.chunks(2).map(|pair| (pair[0], pair[1])).collect();
    pairs.push((&long, "SELECT c FROM ks.t WHERE k = ?"));
    let (mut by_fingerprint, mut literal) = (begun(64), begun(64));
    for (statement, fingerprint) in pairs.iter().chain(&pairs) {
        by_fingerprint.note_by_fingerprint(&named(statement), true, Some(7));
        literal.note_request(&named(fingerprint), true, Some(7));
    }
    assert_eq!(written(&by_fingerprint), written(&literal));
    assert!(by_fingerprint.len() < pairs.len());
}

const SECOND: u64 = 1_000_000_000;

/// The seconds of an interval; requests, each with the nanosecond at which it was over, and whether it was answered; and the first five columns of the lines,
/// up to the unanswered.
type Intervals = (u32, &'static [(Option<u64>, bool)], &'static [&'static str]);

/// Clocks that go back, times that are not known, the last nanosecond of an interval and the greatest time.
const INTERVALS: [Intervals; 7] = [
    (10, &[], &[]),
    (10, &[(None, false), (None, true)], &["- 0.200 2 0 1"]),
    (10, &[(None, false), (Some(5 * SECOND), true), (None, false)], &["- 0.100 1 0 1", "1970-01-01T00:00:00Z 0.200 2 0 1"]),
    (10,
        &[(Some(20 * SECOND), true), (Some(9 * SECOND), true), (Some(30 * SECOND - 1), true), (None, true), (Some(30 * SECOND), true),
            (Some(21 * SECOND), true)],
        &["1970-01-01T00:00:20Z 0.400 4 0 0", "1970-01-01T00:00:30Z 0.200 2 0 0"]),
    (7, &[(Some(6 * SECOND), true), (Some(1_000_000_000 * SECOND), true), (Some(u64::MAX), false), (Some(0), true)],
        &["1970-01-01T00:00:00Z 0.142 1 0 0", "2001-09-09T01:46:34Z 0.142 1 0 0", "2554-07-21T23:34:31Z 0.285 2 0 1"]),
    (0, &[(Some(SECOND), true), (Some(3 * SECOND), true)], &["1970-01-01T00:00:01Z 1.000 1 0 0", "1970-01-01T00:00:03Z 1.000 1 0 0"]),
    (u32::MAX, &[(Some(SECOND), true), (Some(u64::MAX), true)], &["1970-01-01T00:00:00Z 0.000 1 0 0", "2514-05-30T01:53:00Z 0.000 1 0 0"]),
];

#[test]
fn what_intervals_count() {
    for (seconds, requests, due) in INTERVALS {
        let (mut summary, mut said) = (begun(0), String::new());
        for (at, is_answered) in requests {
            if summary.is_over(seconds, *at) {
                said += &written_every(&summary, seconds);
            }
            summary.note_in_interval(seconds, &named("k"), *is_answered, *at);
        }
        said += &written_every(&summary, seconds);
        let lines: Vec<String> = said.lines().map(|line| line.split_whitespace().take(5).collect::<Vec<_>>().join(" ")).collect();
        assert_eq!(lines[0], "begin per_s count errors unanswered");
        assert_eq!(lines[1..], *due);
    }
}

#[test]
fn how_far_intervals_count() {
    let mut summary = begun(0);
    let most = Occurrence { is_error: true, rows: u64::MAX, bytes: u64::MAX, took: Some(u64::MAX), ..named("k") };
    for _ in 0..2 {
        summary.note_in_interval(1, &most, true, Some(u64::MAX));
    }
    let due = "2554-07-21T23:34:33Z      2.000        2      2          0 18446744073709551615 18446744073709551615 \
        18446744073709.551 18446744073709.551 18446744073709.551 18446744073709.551\n";
    assert_eq!(written_every(&summary, 1), due);
}

fn named(name: &str) -> Occurrence<'_> {
    Occurrence { name: name.as_bytes(), is_whole_name: true, is_error: false, rows: 1, bytes: 2, took: Some(3_000_000) }
}

/// A summary of at most this many statements, for which memory is asked six times, or twice for none, and each time needed.
fn begun(statements: usize) -> Summary {
    for number in 1..=2 + 4 * statements.min(1) as u64 {
        assert!(refusing(number, number, || Summary::new(statements).is_err()).0, "made without request {number}");
    }
    Summary::new(statements).unwrap()
}

fn occurrence_of(line: &str) -> Occurrence<'_> {
    let words: Vec<&str> = line.splitn(5, ' ').collect();
    Occurrence {
        name: words[4].trim_start_matches("..").as_bytes(),
        is_whole_name: !words[4].starts_with(".."),
        is_error: words[0] == "error",
        rows: words[1].parse().unwrap(),
        bytes: words[2].parse().unwrap(),
        took: words[3].parse().ok(),
    }
}

fn written(summary: &Summary) -> String {
    let mut out = OfStd::new(Vec::new());
    let mut writer = TextWriter::over(&mut out);
    summary.put(&mut writer, "statement").and(writer.flush()).unwrap();
    let _ = writer.into_target();
    String::from_utf8(out.into_inner()).unwrap()
}

fn written_every(summary: &Summary, seconds: u32) -> String {
    let mut out = OfStd::new(Vec::new());
    let mut writer = TextWriter::over(&mut out);
    summary.put_interval(&mut writer, seconds).and(writer.flush()).unwrap();
    let _ = writer.into_target();
    String::from_utf8(out.into_inner()).unwrap()
}
