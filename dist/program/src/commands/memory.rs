//! Tasks in little memory, and how often they write.
use super::done::Done;
use super::fakes::{Adds, Calls, Looks, Narrow, Pieces};
use crate::cqlp_note::Limits;
use crate::cqlp_render_skip::{check_skipping, show_skipping};
use crate::cqlp_text::PagePlace;
use crate::cqlp_tool::{TextForm, check, rows, show};
use crate::heap::{measured, within};
use std::cell::Cell;

const LIMITS: Limits = Limits { text: 64, cell: 64, entries: 8, depth: 3, types: true, parts: false };

/// How many bytes a read gives.
const SIZE: usize = 9;

/// What is said of a task in memory of 0 bytes, of 16 more, and so on, and where it does not give all back; where that is as before, nothing. Then,
/// if no frame is passed over, how often `show` writes where each read gives nine bytes, and where one gives all.
pub fn said(task: &str, bytes: &[u8]) -> String {
    let mut said: Vec<String> = (0..4_400).map(|blocks| said_within(16 * blocks, task, bytes)).collect();
    said.dedup();
    let writes = if task.ends_with("--skip") { String::new() } else { writes(bytes) + &early_reads(bytes) };
    said.concat() + &writes
}

fn said_within(room: usize, task: &str, bytes: &[u8]) -> String {
    let (out, err) = (Narrow::new(usize::MAX, 7), Narrow::new(usize::MAX, 7));
    let mut input = Pieces::new(bytes, [SIZE; 3]);
    let (done, _, kept) = measured(|| within(room, || task_done(task, &mut input, out, err)));
    let loss = if kept == 0 { String::new() } else { format!("loses {kept} bytes\n") };
    Done::of(done).said() + &loss
}

fn task_done(task: &str, input: &mut Pieces<'_>, out: Narrow, err: Narrow) -> (u8, Narrow, Narrow) {
    match task {
        "show" => show(LIMITS, input, out, err),
        "show --skip" => show_skipping(LIMITS, false, TextForm::Lines, input, out, err),
        "rows" => rows(LIMITS, input, out, err),
        "rows --skip" => show_skipping(LIMITS, false, TextForm::Pages(PagePlace::new()), input, out, err),
        "check" => check(LIMITS, false, input, out, err),
        "check --skip" => check_skipping(LIMITS, false, input, out, err),
        _ => panic!("{task} is no task"),
    }
}

fn writes(bytes: &[u8]) -> String {
    let count = |size| show(LIMITS, &mut Pieces::new(bytes, [size; 3]), Calls(0), Calls(0)).1.0;
    format!("{} writes\n{} writes\n", count(SIZE), count(usize::MAX))
}

/// Where a read is made before the text of all bytes before it is out, or after no text can be written.
fn early_reads(bytes: &[u8]) -> String {
    let text_of = |piece: usize| {
        let mut input = Pieces::new(&bytes[..bytes.len().min(SIZE * piece)], [SIZE; 3]);
        show(LIMITS, &mut input, Narrow::new(usize::MAX, usize::MAX), Calls(0)).1.text.len()
    };
    let wanted: Vec<usize> = (0..=bytes.len().div_ceil(SIZE)).map(text_of).collect();
    let out = Cell::new(0);
    let mut looks = Looks { pieces: Pieces::new(bytes, [SIZE; 3]), out: &out, seen: Vec::new() };
    show(LIMITS, &mut looks, Adds(&out), Calls(0));
    let mut input = Pieces::new(bytes, [SIZE; 3]);
    show(LIMITS, &mut input, Narrow::new(0, 1), Calls(0));
    let early = if looks.seen == wanted { String::new() } else { format!("reads where {:?} bytes are out\n", looks.seen) };
    early + if input.left() + SIZE < bytes.len() { "reads on after a write fault\n" } else { "" }
}
