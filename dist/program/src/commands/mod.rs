//! What `command` writes and answers. The folder programs/data, which CQLP_LINES names, has the lines that ask, lines.txt, and what is to be said of
//! them, said.txt; programs/lines says what a line is, and has the program itself say the same.
//!
//! Each command line is repeated with input byte by byte, reads that fail, and outputs of little room. `differs` is said of another answer.
mod done;
mod fakes;
mod memory;
mod pipes;
mod talks;
mod ways;

use crate::cqlp_decode::{Decoder, Finish, Outcome};
use crate::cqlp_note::Limits;
use crate::cqlp_render::render_rows;
use crate::digits::bytes_of;
use done::{Done, Invocation, WHOLE};
use fakes::{Narrow, Pieces};
use std::fs;
use std::thread;

const THREADS: usize = 8;

/// The command line of a worked stream, up to its other options.
const WORKED: &str = "show --text=64 --cell=64 --entries=8 --depth=3 ";

fn text(name: &str) -> String {
    fs::read_to_string(format!("{}/{name}", std::env::var("CQLP_LINES").unwrap())).unwrap()
}

/// Runs a test in a folder that has the file `page` alone, and sees that it has no other after it.
fn in_folder(test: impl FnOnce()) {
    let folder = std::env::temp_dir().join(format!("cqlp-lines-{}", std::process::id()));
    fs::create_dir(&folder).unwrap();
    fs::copy(format!("{}/page", std::env::var("CQLP_LINES").unwrap()), folder.join("page")).unwrap();
    std::env::set_current_dir(&folder).unwrap();
    test();
    let files: Vec<_> = fs::read_dir(&folder).unwrap().map(|file| file.unwrap().file_name()).collect();
    fs::remove_dir_all(&folder).unwrap();
    assert_eq!(files, ["page"]);
}

#[test]
fn what_is_said_of_each_line() {
    let (lines, all) = (text("lines.txt"), text("said.txt"));
    let lines: Vec<&str> = lines.lines().collect();
    let mut said = Vec::new();
    in_folder(|| said = said_of_all(&lines));
    let mut wanted = all.split_inclusive('\n');
    for (line, said) in lines.iter().zip(said) {
        let own: String = wanted.by_ref().take(said.lines().count()).collect();
        assert_eq!(said, own, "{line}");
    }
    let asked = lines.iter().filter(|line| !line.starts_with('#')).count();
    let worked = lines.iter().filter(|line| worked_limits(line.split('|').next().unwrap().trim_end()).is_some()).count();
    assert_eq!((wanted.next(), asked, worked), (None, 613, 116));
}

/// What is said of each line, by some threads, of which each has memory of its own.
fn said_of_all(lines: &[&str]) -> Vec<String> {
    let said_by = |first| lines.iter().skip(first).step_by(THREADS).map(|line| said_of(line)).collect::<Vec<_>>();
    let mut said = thread::scope(|scope| {
        let threads: Vec<_> = (0..THREADS).map(|first| scope.spawn(move || said_by(first))).collect();
        threads.into_iter().map(|thread| thread.join().unwrap().into_iter()).collect::<Vec<_>>()
    });
    (0..lines.len()).map(|place| said[place % THREADS].next().unwrap()).collect()
}

/// What is said of a line.
fn said_of(line: &str) -> String {
    if let Some((words, digits)) = line.split_once('|') {
        return format!("== {}\n{}", words.trim_end(), said_of_input(words.trim_end(), &bytes_of(digits)));
    }
    if let Some((words, start)) = line.split_once('?') {
        return format!("== {}\n{}", words.trim_end(), said_of_start(words, start.trim()));
    }
    match line.strip_prefix("talk ") {
        Some(words) => format!("== {line}\n{}", talks::said(words)),
        None => format!("{line}\n"),
    }
}

/// What a command line writes with these bytes on standard input, and between the two outputs its status.
fn said_of_input(words: &str, bytes: &[u8]) -> String {
    if let Some(task) = words.strip_suffix(" in little memory") {
        return memory::said(task, bytes);
    }
    let (line, is_repeated) = words.strip_suffix(" in one way").map_or((words, true), |line| (line, false));
    let call = Invocation::new(line, bytes);
    let done = call.whole();
    let differences = if is_repeated { ways::differences(&call, &done) + &of_pages(line, bytes, &done) } else { String::new() };
    done.said() + &differences
}

/// Which output alone has a text with this start, and the status.
fn said_of_start(words: &str, start: &str) -> String {
    let call = Invocation::new(words, &[]);
    let done = call.whole();
    let output = match (done.out.starts_with(start.as_bytes()), done.err.starts_with(start.as_bytes())) {
        (true, _) if done.err.is_empty() => "standard output",
        (_, true) if done.out.is_empty() => "standard error",
        _ => "another text",
    };
    format!("{output}\n-- {}\n{}", done.status, ways::differences(&call, &done))
}

/// Where `rows` writes other text of a worked stream than `render_rows`, or ends otherwise than `show` does.
fn of_pages(line: &str, bytes: &[u8], shown: &Done) -> String {
    let Some(limits) = worked_limits(line) else { return String::new() };
    let words = line.replacen("show", "rows", 1);
    let call = Invocation::new(&words, bytes);
    let done = call.whole();
    let mut decoder = Decoder::new(limits).unwrap();
    let (outcome, out) = render_rows(&mut decoder, &mut Pieces::new(bytes, WHOLE), Narrow::new(usize::MAX, 7), u64::MAX);
    let is_whole = matches!(outcome, Outcome::Finished(Finish::Whole { .. }));
    let is_good = done.out == out.text && done.err == shown.err && done.status == shown.status && (done.status == 0) == is_whole;
    ways::differences(&call, &done) + if is_good { "" } else { "differs in its pages\n" }
}

/// The limits of a worked stream; none where a command line is of no such stream.
fn worked_limits(line: &str) -> Option<Limits> {
    let options = line.strip_prefix(WORKED)?;
    let limits = Limits { text: 64, cell: 64, entries: 8, depth: 3, types: options != "--raw -", parts: options == "--parts -" };
    ["-", "--raw -", "--parts -"].contains(&options).then_some(limits)
}
