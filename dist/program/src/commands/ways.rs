//! Standard input and outputs of other kinds. Of each there is a line where something else is written than is to be.
use super::done::{Done, Invocation};
use super::fakes::Pieces;

/// The status of a fault.
const FAULT: u8 = 3;

const WRITE_FAULT: &[u8] = b"cqlp: write fault\n";
const READ_FAULT: &[u8] = b"cqlp: read fault\n";

/// How many bytes a read gives before one fails.
const PIECE: usize = 4;

/// How many a read gives where an output has little room.
const SIZE: usize = 9;

/// For how many parts of a long text there is room in turn; of a short text for each number of its bytes.
const SHARES: usize = 64;

pub fn differences(call: &Invocation<'_>, whole: &Done) -> String {
    in_pieces(call, whole)
        + &reads(call, whole)
        + &after_reads_that_fail(call, whole)
        + &with_room_for_output(call, whole)
        + &with_room_for_errors(call, whole)
        + &with_room_for_the_fault(call, whole)
}

fn differs(is_good: bool, how: impl FnOnce() -> String) -> String {
    if is_good { String::new() } else { format!("differs {}\n", how()) }
}

/// In pieces of each size, and in two cut at each place, if frames are to be passed over; else byte by byte.
fn in_pieces(call: &Invocation<'_>, whole: &Done) -> String {
    let end = if call.skips() { call.bytes.len() } else { 2 };
    let sizes = (1..end).flat_map(|size| [[size; 3], [size, usize::MAX, usize::MAX]]);
    sizes.map(|sizes| differs(call.in_pieces(sizes) == *whole, || format!("in pieces of {sizes:?} bytes"))).collect()
}

/// Standard input is not read, or byte by byte up to its end, and once more, or up to where it is refused, and not before.
fn reads(call: &Invocation<'_>, whole: &Done) -> String {
    let mut input = Pieces::new(call.bytes, [1; 3]);
    call.done(&mut input, usize::MAX, usize::MAX);
    let used = call.bytes.len() - input.left();
    let is_good = match input.reads {
        0 => true,
        reads if whole.is_refused() => {
            reads == used && !Invocation { words: call.words.clone(), bytes: &call.bytes[..used - 1] }.whole().is_refused()
        }
        reads => reads == call.bytes.len() + 1,
    };
    differs(is_good, || format!("in its {} reads of {used} bytes", input.reads))
}

/// With a read that fails after each number of others: a front of the output, and the fault.
fn after_reads_that_fail(call: &Invocation<'_>, whole: &Done) -> String {
    let counts = 0..=call.bytes.len().div_ceil(PIECE);
    counts.map(|before| differs(is_read_fault(call, whole, before), || format!("with a read that fails after {before}"))).collect()
}

fn is_read_fault(call: &Invocation<'_>, whole: &Done, before: usize) -> bool {
    let mut input = Pieces::failing(call.bytes, PIECE, before);
    let done = call.done(&mut input, usize::MAX, usize::MAX);
    if input.has_failed { is_fault(&done, whole, READ_FAULT) } else { done == *whole }
}

/// Whether a front of each output was written, and then this line.
fn is_fault(done: &Done, whole: &Done, line: &[u8]) -> bool {
    let is_front = done.err.strip_suffix(line).is_some_and(|front| before_end(whole).starts_with(front));
    is_front && whole.out.starts_with(&done.out) && done.status == FAULT
}

/// What may be among the errors before the end: where a frame is passed over, a front of all, and else nothing.
fn before_end(whole: &Done) -> &[u8] {
    if whole.err.starts_with(b"skipped ") { &whole.err } else { &[] }
}

/// Numbers of bytes less than this length.
fn rooms(len: usize) -> impl Iterator<Item = usize> {
    let shares = SHARES.min(len);
    (0..shares).map(move |share| share * len / shares)
}

/// With room for a part of the output: that much of the text, no write after the one that failed, and the fault.
fn with_room_for_output(call: &Invocation<'_>, whole: &Done) -> String {
    let is_good = |room| {
        let done = call.done(&mut Pieces::new(call.bytes, [SIZE; 3]), room, usize::MAX);
        done.out.len() == room && done.failures == 1 && is_fault(&done, whole, WRITE_FAULT)
    };
    rooms(whole.out.len()).map(|room| differs(is_good(room), || format!("with room for {room} bytes of output"))).collect()
}

/// With room for a part of the errors: that much of the text, and the whole output, or a front where a frame is passed over.
fn with_room_for_errors(call: &Invocation<'_>, whole: &Done) -> String {
    let is_good = |room| {
        let done = call.done(&mut Pieces::new(call.bytes, [SIZE; 3]), usize::MAX, room);
        let is_written = done.out.len() == whole.out.len() || !before_end(whole).is_empty();
        is_written && whole.out.starts_with(&done.out) && done.status == FAULT && done.err == whole.err[..room]
    };
    rooms(whole.err.len()).map(|room| differs(is_good(room), || format!("with room for {room} bytes of errors"))).collect()
}

/// With no room for the output, and room for a part of the fault's line: that much of it.
fn with_room_for_the_fault(call: &Invocation<'_>, whole: &Done) -> String {
    if whole.out.is_empty() || !before_end(whole).is_empty() {
        return String::new();
    }
    let is_good = |room: usize| {
        let done = call.done(&mut Pieces::new(call.bytes, [SIZE; 3]), 0, room);
        done == Done { status: FAULT, out: Vec::new(), err: WRITE_FAULT[..room].to_vec(), failures: 1 }
    };
    (0..WRITE_FAULT.len()).map(|room| differs(is_good(room), || format!("with room for {room} bytes of the fault's line"))).collect()
}
