// Written by dist/erase from crates/cqlp_options/src/program.rt.
//! The program's command line, as its parser is given it.

use crate::cqlp_options::command_line::QUERIES;
use crate::cqlp_options::limits::CaptureLimits;
use crate::clap::builder::ValueParser;
use crate::clap::{Arg, ArgAction, Command, value_parser};
use crate::cqlp_note::{LimitRange, Limits};
use crate::kit_std::alloc::{AllocError};

/// What the program's own help ends with. docs/check compares its numbers with `Limits`.
const HELP: &str = "Each of show, rows and check takes a FILE, where - is standard input, and\n\
    \x20 --text <N>     bytes of one text at most, from 32 to 16777216 [default: 1048576]\n\
    \x20 --cell <N>     bytes of one content or scalar cell at most, from 32 to 16777216 [default: 1048576]\n\
    \x20 --entries <N>  type options of one metadata at most, from 1 to 65536 [default: 4096]\n\
    \x20 --depth <N>    nesting of one type at most, from 1 to 64 [default: 16]\n\
    \x20 --raw          each cell as raw bytes\n\
    \x20 --parts        longer blob, custom and raw cells in parts\n\
    \x20 --lenient      as raw bytes what is refused else: a content that its type does not have,\n\
    \x20                bytes after the last field, and the cells of a type with an unknown id\n\
    \x20 --skip         where the body of a frame is refused, pass over it and read on\n\
    \x20 --json         of show: each event as a JSON object in a line of its own;\n\
    \x20                of rows: each row as a JSON array in a line of its own\n\
    \x20 --csv          of rows: each row as a record of CSV\n\
    \n\
    Without words it does what `cqlp show -` does.\n\
    Example: cqlp rows capture.bin";

/// The program's command line.
pub(crate) fn program<'a>() -> Result<Command<'a>, AllocError> {
    with_tasks(&TASKS)
}

fn with_tasks<'a>(tasks: &[Task]) -> Result<Command<'a>, AllocError> {
    let mut program = without_tasks()?;
    for task in tasks {
        program = with_task(program, task)?;
    }
    Ok(program)
}

fn without_tasks<'a>() -> Result<Command<'a>, AllocError> {
    let program = Command::new("cqlp")
        .about(
            "Reads streams of the CQL native protocol v4 and packet captures, and has a client and a server talk",
        )
        .after_help(HELP)
        .version("0.1.0")
        .no_binary_name(true)
        .subcommand_required(true);
    program.bin_name("cqlp")
}

fn with_task<'a>(
    program: Command<'a>,
    task: &Task,
) -> Result<Command<'a>, AllocError> {
    let mut command = Command::new(task.name)
        .about(task.about)
        .after_help(task.example);
    for words in task.words {
        command = with_words(command, words)?;
    }
    program.subcommand(command)
}

fn with_words<'a>(
    task: Command<'a>,
    words: &[Word],
) -> Result<Command<'a>, AllocError> {
    let mut task = task;
    for word in words {
        task = task.arg(word_of(word)?)?;
    }
    Ok(task)
}

/// A word as the parser is given it.
fn word_of<'a>(word: &Word) -> Result<Arg<'a>, AllocError> {
    let arg = Arg::new(word.name).help(word.help);
    formed(arg, word.name, word.form)
        .requires_all(word.with)?
        .conflicts_with_all(word.without)
}

fn formed<'a>(arg: Arg<'a>, name: &'static str, form: Form) -> Arg<'a> {
    match form {
        Form::File => arg.value_name("FILE").required(true),
        Form::Files => arg
            .value_name("FILE")
            .required(true)
            .action(ArgAction::Append),
        Form::Count(range) => arg
            .value_name("COUNT")
            .required(true)
            .value_parser(in_range(range)),
        Form::Flag => arg.long(name).action(ArgAction::SetTrue),
        Form::Text(value) => arg.long(name).value_name(value),
        Form::Number(value, range) => arg
            .long(name)
            .value_name(value)
            .value_parser(in_range(range)),
        Form::Numbers(range, default) => arg
            .long(name)
            .value_name("N")
            .action(ArgAction::Append)
            .value_parser(in_range(range))
            .default_value(default),
        Form::Place => arg
            .long(name)
            .value_name("N")
            .value_parser(value_parser!(u64).range(1..)),
    }
}

fn in_range<'a>(range: LimitRange) -> ValueParser<'a> {
    value_parser!(u32).range(i64::from(range.least)..=i64::from(range.greatest))
}

/// A subcommand.
struct Task {
    name: &'static str,
    about: &'static str,
    /// What its help ends with.
    example: &'static str,
    /// What it takes, in the order of its help.
    words: &'static [&'static [Word]],
}

/// What a subcommand takes.
struct Word {
    name: &'static str,
    form: Form,
    help: &'static str,
    /// What it needs beside it.
    with: &'static [&'static str],
    /// What it does not go with.
    without: &'static [&'static str],
}

/// How it is given.
#[derive(Clone, Copy)]
enum Form {
    /// By a path in its place.
    File,
    /// By a path in its place, or by several, which options may part.
    Files,
    /// By a number in its place, in this range.
    Count(LimitRange),
    /// By its name alone.
    Flag,
    /// By its name and a text, which help calls so.
    Text(&'static str),
    /// By its name and a number in this range, which help calls so.
    Number(&'static str, LimitRange),
    /// By its name and a number in this range, once or more often; this one where it is not given.
    Numbers(LimitRange, &'static str),
    /// By its name and a number from 1.
    Place,
}

const TASKS: [Task; 6] = [
    Task {
        name: "show",
        about: "Write a line for each event of a stream, and a verdict to standard error",
        example: "Example: cqlp show --text 4096 capture.bin",
        words: &[&READING, &SHOWING],
    },
    Task {
        name: "rows",
        about: "Write the pages of a stream as text, and a verdict to standard error",
        example: "Example: cqlp rows --parts capture.bin",
        words: &[&READING, &ROWS],
    },
    Task {
        name: "check",
        about: "Write the verdict on a stream alone",
        example: "Example: cqlp check - < capture.bin",
        words: &[&READING],
    },
    Task {
        name: "loop",
        about: "Have a client and a server talk over a loopback connection, and write a line for each reply",
        example: "Example: cqlp loop 3",
        words: &[&TALKING],
    },
    Task {
        name: "capture",
        about: "Write a line for each request in a packet capture and its reply, with --summary one for each statement \
                at the end, with --events one for each event of each frame, with --rows the pages of one connection, or \
                with --streams the bytes of each direction of each connection to a file of its own",
        example: "Options whose help begins with Only choose lines: the verdict and the status are those of the whole capture.\n\
                  Example: tcpdump -U -w - port 9042 | cqlp capture --slow 10 -",
        words: &[&CAPTURE],
    },
    Task {
        name: "merge",
        about: "Add summaries of several captures, as of many nodes, and write one, as cqlp capture --summary writes it",
        example: "Example: cqlp merge node1.json node2.json",
        words: &[&MERGE],
    },
];

/// What each task with a stream takes. The help of a limit has its range and what the number is where it is not given, and docs/check
/// compares both with `Limits`.
const READING: [Word; 9] = [
    Word {
        name: "file",
        form: Form::File,
        help: "The file with the stream; - is standard input",
        with: &[],
        without: &[],
    },
    Word {
        name: "text",
        form: Form::Number("N", Limits::TEXT),
        help: "Bytes of one [string] or [long string] at most, from 32 to 16777216 [default: 1048576]",
        with: &[],
        without: &[],
    },
    Word {
        name: "cell",
        form: Form::Number("N", Limits::CELL),
        help: "Bytes of one [bytes], [short bytes], [value] or scalar cell at most, from 32 to 16777216 [default: 1048576]",
        with: &[],
        without: &[],
    },
    Word {
        name: "entries",
        form: Form::Number("N", Limits::ENTRIES),
        help: "Type options of one metadata at most, nested ones counted, from 1 to 65536 [default: 4096]",
        with: &[],
        without: &[],
    },
    Word {
        name: "depth",
        form: Form::Number("N", Limits::DEPTH),
        help: "Nesting of one type at most, from 1 to 64; a column's own type has depth 1 [default: 16]",
        with: &[],
        without: &[],
    },
    Word {
        name: "raw",
        form: Form::Flag,
        help: "Read each cell as raw bytes, without its column's type",
        with: &[],
        without: &[],
    },
    Word {
        name: "parts",
        form: Form::Flag,
        help: "Give longer blob, custom and raw cells in parts of the size of --cell",
        with: &[],
        without: &[],
    },
    Word {
        name: "lenient",
        form: Form::Flag,
        help: "Give as raw bytes, and read on behind it, a content that its type does not have, bytes after the last field of a \
            tuple or a user-defined value, and each cell of a type with an unknown id",
        with: &[],
        without: &[],
    },
    Word {
        name: "skip",
        form: Form::Flag,
        help: "Where the body of a frame is refused, pass over it and read on behind it",
        with: &[],
        without: &[],
    },
];

/// What `show` takes beside.
const SHOWING: [Word; 1] = [Word {
    name: "json",
    form: Form::Flag,
    help: "Write each event as a JSON object in a line of its own",
    with: &[],
    without: &[],
}];

/// What `rows` takes beside.
const ROWS: [Word; 2] = [
    Word {
        name: "json",
        form: Form::Flag,
        help: "Write each row as a JSON array in a line of its own, after a line for its page",
        with: &[],
        without: &["csv"],
    },
    Word {
        name: "csv",
        form: Form::Flag,
        help: "Write each row as a record of CSV, after one with the names of the columns",
        with: &[],
        without: &[],
    },
];

/// What `loop` takes.
const TALKING: [Word; 1] = [Word {
    name: "queries",
    form: Form::Count(QUERIES),
    help: "How many queries the client sends, from 1 to 1000",
    with: &[],
    without: &[],
}];

/// The ports that there are.
const PORTS: LimitRange = LimitRange {
    least: 1,
    greatest: 65_535,
};

/// The seconds that an interval may have: up to a day.
const SECONDS: LimitRange = LimitRange {
    least: 1,
    greatest: 86_400,
};

/// All numbers of 32 bits.
const ALL: LimitRange = LimitRange {
    least: 0,
    greatest: u32::MAX,
};

/// What `capture` takes. The help of a limit has its range and what the number is where it is not given, and docs/check compares both
/// with `CaptureLimits`.
const CAPTURE: [Word; 33] = [
    Word {
        name: "file",
        form: Form::Files,
        help: "The capture, a pcap or pcapng file, or several that were captured one after the other; - is standard input",
        with: &[],
        without: &[],
    },
    Word {
        name: "follow",
        form: Form::Flag,
        help: "FILE goes on: a folder, whose captures are read as they are written, or one that grows; with - paths come on standard input, a line each",
        with: &[],
        without: &[],
    },
    Word {
        name: "port",
        form: Form::Numbers(PORTS, "9042"),
        help: "A port on which nodes listen, from 1 to 65535; it may be repeated, for up to 16 ports",
        with: &[],
        without: &[],
    },
    Word {
        name: "slow",
        form: Form::Number("MS", ALL),
        help: "Only requests whose reply took this many milliseconds or more, from 0 to 4294967295",
        with: &[],
        without: &[],
    },
    Word {
        name: "errors",
        form: Form::Flag,
        help: "Only requests whose reply is an ERROR, and those without one",
        with: &[],
        without: &[],
    },
    Word {
        name: "opcode",
        form: Form::Text("NAME"),
        help: "Only requests with this opcode, by its name in the lines, such as EXECUTE",
        with: &[],
        without: &[],
    },
    Word {
        name: "kind",
        form: Form::Text("NAME"),
        help: "Only requests whose reply is of this kind, and such responses, by its name in the lines, such as ROWS, RESULT, ERROR or ReadTimeout",
        with: &[],
        without: &[],
    },
    Word {
        name: "client",
        form: Form::Text("ADDRESS"),
        help: "Only connections of the client with this address; ADDRESS:PORT, of IPv6 [ADDRESS]:PORT, names its port too",
        with: &[],
        without: &[],
    },
    Word {
        name: "node",
        form: Form::Text("ADDRESS"),
        help: "Only connections of the node with this address; ADDRESS:PORT, of IPv6 [ADDRESS]:PORT, names its port too",
        with: &[],
        without: &[],
    },
    Word {
        name: "from",
        form: Form::Text("TIME"),
        help: "Only what begins at this time or later: in seconds since the first packet, as in the lines, or as 2026-11-29T10:15:30Z",
        with: &[],
        without: &[],
    },
    Word {
        name: "to",
        form: Form::Text("TIME"),
        help: "Only what begins at this time or earlier: in seconds since the first packet, as in the lines, or as 2026-11-29T10:15:30Z",
        with: &[],
        without: &[],
    },
    Word {
        name: "statement",
        form: Form::Text("TEXT"),
        help: "Only requests whose statement has this text in it, as far as the lines show it",
        with: &[],
        without: &[],
    },
    Word {
        name: "statement-regex",
        form: Form::Text("REGEX"),
        help: "Only requests whose statement has a match of this regular expression, as far as the lines show it; ^ and $ are the begin and end \
            of its text, and (?i) in front takes letters of both cases",
        with: &[],
        without: &[],
    },
    Word {
        name: "statements",
        form: Form::Text("FILE"),
        help: "A file with the statements that were prepared before the capture, as cqlsh -e \"SELECT JSON * FROM system.prepared_statements\" writes it; for \
            --rows with the columns of their tables too, from system_schema.columns, and user-defined types, from system_schema.types",
        with: &[],
        without: &["streams", "events"],
    },
    Word {
        name: "connection",
        form: Form::Place,
        help: "Only the connection with this number; the first has the number 1",
        with: &[],
        without: &[],
    },
    Word {
        name: "streams",
        form: Form::Text("DIR"),
        help: "The folder for the files N.requests.bin and N.responses.bin of connection N",
        with: &[],
        without: &[
            "slow",
            "errors",
            "opcode",
            "kind",
            "client",
            "node",
            "from",
            "to",
            "statement",
            "statement-regex",
            "connection",
            "open",
            "text",
        ],
    },
    Word {
        name: "json",
        form: Form::Flag,
        help: "Write each request with its reply as a JSON object in a line of its own; with --summary each line of it",
        with: &[],
        without: &["streams"],
    },
    Word {
        name: "csv",
        form: Form::Flag,
        help: "Write each request with its reply as a record of CSV, below one with the names of its fields",
        with: &[],
        without: &["json", "values", "summary", "events", "rows", "streams"],
    },
    Word {
        name: "values",
        form: Form::Flag,
        help: "With each request the values that it binds, by their types where its PREPARED was captured, as far as the first 256 bytes \
            of both have them; for the lines and --json of requests",
        with: &[],
        without: &["summary", "events", "rows", "streams"],
    },
    Word {
        name: "utc",
        form: Form::Flag,
        help: "The time of each line as a date and a time of day of UTC, as 2026-11-29T10:15:30.000000Z, in place of seconds since the first packet",
        with: &[],
        without: &["streams", "events", "rows"],
    },
    Word {
        name: "ends",
        form: Form::Flag,
        help: "The client and the node in each line, each as ADDRESS:PORT, behind the connection's number and the stream id",
        with: &[],
        without: &["streams", "events", "rows"],
    },
    Word {
        name: "summary",
        form: Form::Flag,
        help: "A line for each statement at the end: how often it was asked for and how long it took, the one that took \
            most time first",
        with: &[],
        without: &["streams"],
    },
    Word {
        name: "by",
        form: Form::Text("WHAT"),
        help: "With --summary, count requests by this: table (that the statement names), client (its address), node, \
            opcode, error (of the reply) or statement [default: statement]",
        with: &["summary"],
        without: &["streams", "events", "rows"],
    },
    Word {
        name: "literal",
        form: Form::Flag,
        help: "With --summary, count statements that differ in their literals each for itself",
        with: &["summary"],
        without: &[],
    },
    Word {
        name: "every",
        form: Form::Number("SECONDS", SECONDS),
        help: "With --summary, a line for each interval of so many seconds, from 1 to 86400, as soon as it is over: how many requests \
            were over in it and how long they took; not with --by or --literal",
        with: &["summary"],
        without: &["by", "literal", "streams", "events", "rows"],
    },
    Word {
        name: "histogram",
        form: Form::Flag,
        help: "With --summary, how many requests took how long, in ranges of time that double, in place of the lines",
        with: &["summary"],
        without: &["streams", "events", "rows"],
    },
    Word {
        name: "events",
        form: Form::Flag,
        help: "A line for each event of each frame, after the connection's number and > of a request or < of a response",
        with: &[],
        without: &[
            "slow",
            "errors",
            "opcode",
            "kind",
            "client",
            "node",
            "from",
            "to",
            "statement",
            "statement-regex",
            "json",
            "summary",
            "streams",
            "open",
            "text",
        ],
    },
    Word {
        name: "rows",
        form: Form::Flag,
        help: "The pages of the connection that --connection names, as cqlp rows writes them",
        with: &["connection"],
        without: &[
            "slow",
            "errors",
            "opcode",
            "kind",
            "client",
            "node",
            "from",
            "to",
            "statement",
            "statement-regex",
            "json",
            "summary",
            "events",
            "streams",
            "open",
            "text",
        ],
    },
    Word {
        name: "connections",
        form: Form::Number("N", CaptureLimits::CONNECTIONS),
        help: "Connections that are followed at one time, from 1 to 1048576; the one silent for longest gives way [default: 65536]",
        with: &[],
        without: &[],
    },
    Word {
        name: "open",
        form: Form::Number("N", CaptureLimits::OPEN),
        help: "Requests that wait for their replies at one time, on all connections together, from 1 to 16777216 [default: 262144]",
        with: &[],
        without: &[],
    },
    Word {
        name: "early",
        form: Form::Number("MIB", CaptureLimits::EARLY),
        help: "MiB of early segments that are held at one time, on all connections together, from 1 to 4096 [default: 24]",
        with: &[],
        without: &[],
    },
    Word {
        name: "text",
        form: Form::Number("MIB", CaptureLimits::TEXT),
        help: "MiB of the texts of requests that wait, on all connections together, from 1 to 4096 [default: 7]",
        with: &[],
        without: &[],
    },
    Word {
        name: "order",
        form: Form::Number("N", CaptureLimits::ORDER),
        help: "Packets that wait to be put in order by their times, from 0 to 65536; of - or a pipe none unless given [default: 1000]",
        with: &[],
        without: &[],
    },
];

/// What `merge` takes.
const MERGE: [Word; 2] = [
    Word {
        name: "file",
        form: Form::Files,
        help: "What cqlp capture --summary --json wrote, or several such files; - is standard input",
        with: &[],
        without: &[],
    },
    Word {
        name: "json",
        form: Form::Flag,
        help: "Write each line as a JSON object, as cqlp capture --summary --json does",
        with: &[],
        without: &[],
    },
];
