//! The tables that statements name. Each second line of summaries/tables.txt is the name under which the line before it is counted. There `\n` is the end of a
//! line, and what comes after `|` is not in the body of the request.
use super::text;
use crate::cqlp_capture_exchanges::{ExchangeFilter, ExchangeForm, ExchangeLimits, SummaryBy, write_exchanges};
use crate::cqlp_capture_streams::{Buffering, StreamsLimits};
use crate::cqlp_note::OfStd;
use crate::cqlp_statement_file::StatementTexts;

#[test]
fn what_tables_are_named() {
    let lines = text("summaries/tables.txt");
    let lines: Vec<&str> = lines.lines().collect();
    for pair in lines.chunks(2) {
        assert_eq!(name_of(&pair[0].replace("\\n", "\n")), pair[1], "{}", pair[0]);
    }
    assert_eq!(lines.len(), 126);
}

/// What a QUERY of this statement is counted under.
fn name_of(statement: &str) -> String {
    let file = capture_of(&query_of(statement));
    let (mut file, out, err) = (OfStd::new(&file[..]), OfStd::new(Vec::new()), OfStd::new(Vec::new()));
    let (limits, form) = (StreamsLimits::DEFAULT, ExchangeForm::Summary(SummaryBy::Table));
    let (status, out, _) =
        write_exchanges(limits, ExchangeLimits::DEFAULT, &[9042], StatementTexts::new(), ExchangeFilter::ALL, form, Buffering::Block, &mut file, out, err);
    let summary = String::from_utf8(out.into_inner()).unwrap();
    let (heading, row) = summary.split_once('\n').unwrap();
    assert_eq!((status, row.lines().count()), (0, 1));
    row.trim_end()[heading.find("table").unwrap()..].replace("\\\"", "\"")
}

/// A frame of this statement, in whose body its end is missing.
fn query_of(statement: &str) -> Vec<u8> {
    let (kept, missing) = statement.split_once('|').unwrap_or((statement, ""));
    let length = (statement.len() - usize::from(kept.len() < statement.len())) as u32;
    let mut body = [&length.to_be_bytes(), kept.as_bytes()].concat();
    if kept.len() == statement.len() {
        body.extend([0, 1, 0]);
    }
    [&[4, 0, 0, 0, 7], &(body.len() as u32).to_be_bytes()[..], &body].concat()
}

/// A pcap file of one packet of IPv4, from a client to a node at port 9042.
fn capture_of(payload: &[u8]) -> Vec<u8> {
    let length = 40 + payload.len();
    let header = [0xa1b2_c3d4_u32, 0x0004_0002, 0, 0, 0x0004_0000, 101].map(u32::to_le_bytes).concat();
    let record = [1, 0, length as u32, length as u32].map(u32::to_le_bytes).concat();
    let ip = [&[0x45, 0], &(length as u16).to_be_bytes()[..], &[0, 0, 0x40, 0, 64, 6, 0, 0, 10, 0, 0, 1, 10, 0, 0, 2]].concat();
    let tcp = [&[0x27, 0x10, 0x23, 0x52, 0, 0, 0, 1, 0, 0, 0, 1, 0x50, 0x18, 1, 0, 0, 0, 0, 0], payload].concat();
    [header, record, ip, tcp].concat()
}
