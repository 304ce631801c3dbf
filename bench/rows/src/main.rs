//! Times `cqlp::rows` and `Decoder::feed` beside readers by hand, all in one run: `rows [ROUNDS] PAGE..`, where the pages are files of bench/pages.py
//! whose names begin with `rows`, `collections` or `columns`. The readers of a line run in turn, ROUNDS times (15), and as many times as often as the page
//! is smaller than 50 MB. It prints a line of a table for each: the least time by hand and of ours, in milliseconds of the processor, and their ratio,
//! which is over 1 where ours is faster. bench/rows.sh and bench/ratios.py call it.
#![forbid(unsafe_code)]

mod hand;
mod wide;

use cqlp::frame::{Atom, BuildLimits, FrameBuilder, Message, Value};
use cqlp::rows::{FromCell, LentCell, Mismatch, page_rows};
use cqlp::{Decoder, Event, Fed, Limits, Sink, SinkFault, Step};
use std::collections::BTreeMap;
use std::error::Error;
use std::hint::black_box;
use std::time::{Duration, Instant};
use wide::Wide;

type Run<'a> = Box<dyn Fn() -> u64 + 'a>;

cqlp::row! {
    struct Owned { column0: i32, column1: i64, column2: String, column3: bool }
}

cqlp::row! {
    struct Lent<'a> { column0: i32, column1: i64, column2: &'a str, column3: bool }
}

fn sum_of(id: i32, total: i64, name: &str, paid: bool) -> u64 {
    (id as u64).wrapping_add(total as u64).wrapping_add(name.len() as u64 + u64::from(name.as_bytes()[15])).wrapping_add(paid.into())
}

/// The sum of the ints of a list.
struct SumOfList(u64);

impl<'a> FromCell<'a> for SumOfList {
    fn from_cell(cell: LentCell<'a, '_>) -> Result<Self, Mismatch> {
        let LentCell::Items(items) = cell else { return Err(Mismatch::Null { wanted: "items" }) };
        let mut sum = 0_u64;
        items.read_each(|item: i32| sum = sum.wrapping_add(item as u64))?;
        Ok(SumOfList(sum))
    }
}

/// The sum of the values of a map and of the lengths of its keys.
struct SumOfMap(u64);

impl<'a> FromCell<'a> for SumOfMap {
    fn from_cell(cell: LentCell<'a, '_>) -> Result<Self, Mismatch> {
        let LentCell::Items(items) = cell else { return Err(Mismatch::Null { wanted: "items" }) };
        let mut sum = 0_u64;
        items.read_pairs(|key: &str, value: i32| sum = sum.wrapping_add(key.len() as u64).wrapping_add(value as u64))?;
        Ok(SumOfMap(sum))
    }
}

/// Either of both, item by item.
struct Sum(u64);

impl<'a> FromCell<'a> for Sum {
    fn from_cell(cell: LentCell<'a, '_>) -> Result<Self, Mismatch> {
        let LentCell::Items(items) = cell else { return Err(Mismatch::Null { wanted: "items" }) };
        let mut sum = 0_u64;
        for item in items {
            sum = sum.wrapping_add(match item {
                LentCell::Scalar(cqlp::Scalar::Varchar(text)) => text.len() as u64,
                item => i32::from_cell(item)? as u64,
            });
        }
        Ok(Sum(sum))
    }
}

/// Adds what all events lend, so that none is left out.
struct Counted(u64);

impl Sink for Counted {
    #[inline(always)]
    fn take(&mut self, _at: u64, event: &Event<'_>) -> Result<(), SinkFault> {
        match *event {
            Event::Leaf { scalar: cqlp::Scalar::Int(number), .. } => self.0 = self.0.wrapping_add(number as u64),
            Event::Leaf { scalar: cqlp::Scalar::Bigint(number), .. } => self.0 = self.0.wrapping_add(number as u64),
            Event::Leaf { scalar: cqlp::Scalar::Varchar(text), .. } => self.0 = self.0.wrapping_add(text.len() as u64),
            Event::Leaf { .. } => self.0 = self.0.wrapping_add(1),
            _ => {}
        }
        Ok(())
    }
}

fn decoder() -> Decoder {
    Decoder::new(Limits::DEFAULT).expect("memory for a decoder")
}

/// By the loop that `feed` stands for.
fn by_steps(page: &[u8], piece: usize) -> u64 {
    let (mut decoder, mut sink) = (decoder(), Counted(0));
    for piece in page.chunks(piece) {
        let mut used = 0;
        loop {
            used += decoder.hand_whole(&piece[used..], &mut sink).expect("a sink that takes all");
            match decoder.next(&piece[used..]) {
                Step::Event { at, used: taken, event } => {
                    sink.take(at, &event).expect("a sink that takes all");
                    used += taken;
                }
                Step::More { .. } => break,
                Step::Refused(refusal) => panic!("{refusal}"),
            }
        }
    }
    sink.0
}

fn by_feed(page: &[u8], piece: usize) -> u64 {
    let (mut decoder, mut sink) = (decoder(), Counted(0));
    for piece in page.chunks(piece) {
        assert_eq!(decoder.feed(piece, &mut sink), Fed::More);
    }
    sink.0
}

/// What is timed of a page: its name, by hand and by ours.
fn tasks<'a>(name: &str, page: &'a [u8]) -> Vec<(&'static str, Run<'a>, Run<'a>)> {
    let mut tasks: Vec<(_, Run, Run)> = match name {
        "rows" => vec![
            ("owned structs", Box::new(|| owned_by_hand(page)), Box::new(|| owned(page))),
            ("a frame's value", Box::new(|| owned_by_hand(page)), Box::new(|| built(page))),
            ("lent rows, summed", Box::new(|| lent_by_hand(page)), Box::new(|| lent(page))),
        ],
        "collections" => vec![
            ("owned lists and maps", Box::new(|| collections_by_hand(page)), Box::new(|| collections(page))),
            ("lent lists and maps, summed", Box::new(|| sums_by_hand(page)), Box::new(|| sums(page))),
            ("lent lists and maps, item by item", Box::new(|| sums_by_hand(page)), Box::new(|| item_sums(page))),
        ],
        _ => vec![("structs of 200 fields", Box::new(|| columns_by_hand(page)), Box::new(|| columns(page)))],
    };
    tasks.push(("`feed` beside `hand_whole` and `next`, whole", Box::new(|| by_steps(page, usize::MAX)), Box::new(|| by_feed(page, usize::MAX))));
    tasks.push(("`feed` beside `hand_whole` and `next`, 64 KiB", Box::new(|| by_steps(page, 1 << 16)), Box::new(|| by_feed(page, 1 << 16))));
    tasks
}

fn owned_by_hand(page: &[u8]) -> u64 {
    let mut rows = Vec::new();
    hand::rows(page, |row| rows.push((row.id, row.total, row.name.to_string(), row.paid))).expect("a page");
    black_box(&rows);
    rows.last().map_or(0, |(id, total, name, paid)| sum_of(*id, *total, name, *paid))
}

fn owned(page: &[u8]) -> u64 {
    let rows = page_rows(page).expect("a page").collect::<Result<Vec<Owned>, _>>().expect("rows");
    black_box(&rows);
    rows.last().map_or(0, |row| sum_of(row.column0, row.column1, &row.column2, row.column3))
}

/// Builds the value of a frame, a page of rows, of its events.
struct Building {
    builder: FrameBuilder,
    sum: u64,
}

impl Sink for Building {
    fn take(&mut self, _at: u64, event: &Event<'_>) -> Result<(), SinkFault> {
        if let Some(built) = self.builder.take(event).expect("a frame that is built") {
            let Message::Rows(rows) = &black_box(&built).frame.message else { panic!("no page") };
            let [.., Value::Leaf(Atom::Int(id)), Value::Leaf(Atom::Bigint(total)), Value::Leaf(Atom::Varchar(name)), Value::Leaf(Atom::Boolean(paid))] =
                &rows.cells[..]
            else {
                panic!("no rows")
            };
            self.sum = sum_of(*id, *total, name, *paid);
        }
        Ok(())
    }
}

fn built(page: &[u8]) -> u64 {
    let limits = BuildLimits { fields: u32::MAX, depth: 1, bytes: u32::MAX };
    let mut building = Building { builder: FrameBuilder::new(limits), sum: 0 };
    assert_eq!(decoder().feed(page, &mut building), Fed::More);
    building.sum
}

fn lent_by_hand(page: &[u8]) -> u64 {
    let mut sum = 0_u64;
    hand::rows(page, |row| sum = sum.wrapping_add(sum_of(row.id, row.total, row.name, row.paid))).expect("a page");
    sum
}

fn lent(page: &[u8]) -> u64 {
    let mut sum = 0_u64;
    for row in page_rows(page).expect("a page") {
        let Lent { column0, column1, column2, column3 } = row.expect("a row");
        sum = sum.wrapping_add(sum_of(column0, column1, column2, column3));
    }
    sum
}

fn collections_by_hand(page: &[u8]) -> u64 {
    let mut rows = Vec::new();
    hand::collections(page, |list, map| rows.push(hand::owned((list, map)).expect("a row"))).expect("a page");
    black_box(&rows);
    rows.len() as u64
}

fn collections(page: &[u8]) -> u64 {
    let rows = page_rows(page).expect("a page").collect::<Result<Vec<(Vec<i32>, BTreeMap<String, i32>)>, _>>().expect("rows");
    black_box(&rows);
    rows.len() as u64
}

fn sums_by_hand(page: &[u8]) -> u64 {
    let mut sum = 0_u64;
    hand::collections(page, |list, map| {
        hand::list(list, |item| sum = sum.wrapping_add(item as u64)).expect("a list");
        hand::map(map, |key, value| sum = sum.wrapping_add(key.len() as u64).wrapping_add(value as u64)).expect("a map");
    })
    .expect("a page");
    sum
}

fn sums(page: &[u8]) -> u64 {
    let rows = page_rows::<(SumOfList, SumOfMap)>(page).expect("a page").map(|row| row.expect("a row"));
    rows.fold(0, |sum, (list, map)| sum.wrapping_add(list.0).wrapping_add(map.0))
}

fn item_sums(page: &[u8]) -> u64 {
    let rows = page_rows::<(Sum, Sum)>(page).expect("a page").map(|row| row.expect("a row"));
    rows.fold(0, |sum, (list, map)| sum.wrapping_add(list.0).wrapping_add(map.0))
}

fn columns_by_hand(page: &[u8]) -> u64 {
    let mut sum = 0_u64;
    hand::columns(page, |row| sum = sum.wrapping_add(black_box(row)[0] as u64).wrapping_add(row[199] as u64)).expect("a page");
    sum
}

fn columns(page: &[u8]) -> u64 {
    let mut sum = 0_u64;
    for row in page_rows::<Wide>(page).expect("a page") {
        let (first, last) = black_box(row.expect("a row")).ends();
        sum = sum.wrapping_add(first as u64).wrapping_add(last as u64);
    }
    sum
}

/// The time of the processor that this thread has had, to the nanosecond; where the system does not say it, the time by a clock.
fn spent(begun: Instant) -> Duration {
    // The system counts by ticks, but where a thread gives up the processor.
    std::thread::yield_now();
    let said = std::fs::read_to_string("/proc/thread-self/schedstat").unwrap_or_default();
    let nanoseconds = said.split(' ').next().and_then(|word| word.parse().ok());
    nanoseconds.map_or_else(|| begun.elapsed(), Duration::from_nanos)
}

/// The milliseconds that a run takes.
fn time(run: &Run<'_>) -> f64 {
    let begun = Instant::now();
    let before = spent(begun);
    black_box(run());
    (spent(begun) - before).as_secs_f64() * 1e3
}

/// The least of so many times by hand, and of ours, which are taken in turn.
fn least(rounds: usize, hand: &Run<'_>, ours: &Run<'_>) -> (f64, f64) {
    assert_eq!(ours(), hand());
    (0..rounds).fold((f64::MAX, f64::MAX), |least, _| (least.0.min(time(hand)), least.1.min(time(ours))))
}

fn main() -> Result<(), Box<dyn Error>> {
    let words: Vec<String> = std::env::args().skip(1).collect();
    let (rounds, paths) = match words.split_first().map(|(first, rest)| (first.parse(), rest)) {
        Some((Ok(rounds), rest)) => (rounds, rest),
        _ => (15, &words[..]),
    };
    for path in paths {
        let page = std::fs::read(path)?;
        let name = path.rsplit('/').next().unwrap_or(path);
        let times = rounds * (50_000_000 / page.len().max(1)).max(1);
        for (what, hand, ours) in tasks(name.split('.').next().unwrap_or(name), &page) {
            let (hand, ours) = least(times, &hand, &ours);
            println!("| {name}, {what} | {hand:.2} ms | {ours:.2} ms | {:.2} |", hand / ours);
        }
    }
    Ok(())
}
