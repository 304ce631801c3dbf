//! Captures whose bytes were changed at random, and what `write_streams`, `write_exchanges`, `write_events` and `write_rows` make of them: no panic, no more
//! memory than the limits say, the same files and lines whole and in pieces of any size, lines that say how long the files are, those of exchanges
//! that are asked for among those of all, an object for each of their lines, and summaries that count them. CQLP_STREAMS is how many changed captures
//! there are, 3,000 where it is not set, 5,000 in a file; those of a driver lie in the folder data of CQLP_CAPTURES.
use crate::cqlp_tcp_connections::Way;
use crate::cqlp_capture_events::write_events;
use crate::cqlp_capture_rows::write_rows;
use crate::cqlp_capture_exchanges::{Attribute, ExchangeFilter, ExchangeForm, ExchangeLimits, IntervalsAs, LineStyle, Naming, SummaryBy, ValuesShown};
use crate::cqlp_capture_exchanges::write_exchanges;
use crate::cqlp_note::{IoFault, OfStd, Source};
use crate::cqlp_capture_streams::{Buffering, CaptureInput, FileFault, StreamFile, StreamFiles, StreamsLimits, write_streams};
use crate::heap::measured;
use crate::cqlp_statement_file::StatementTexts;
use crate::cqlp_statement_types::StatementTypes;
use std::collections::HashMap;

/// As the program has them where none are given.
const LIMITS: StreamsLimits = StreamsLimits::DEFAULT;

/// Numbers that look random, the same at each run.
struct Numbers(u64);

impl Numbers {
    fn below(&mut self, end: usize) -> usize {
        self.0 ^= self.0 << 13;
        self.0 ^= self.0 >> 7;
        self.0 ^= self.0 << 17;
        (self.0 >> 11) as usize % end
    }

    fn one_of<T: Copy>(&mut self, all: &[T]) -> T {
        all[self.below(all.len())]
    }
}

/// Gives a file in pieces of at most this many bytes.
struct Pieces<'a> {
    rest: &'a [u8],
    most: usize,
    numbers: Numbers,
}

impl Source for Pieces<'_> {
    fn read(&mut self, room: &mut [u8]) -> Result<usize, IoFault> {
        let count = self.rest.len().min(room.len()).min(1 + self.numbers.below(self.most));
        let (piece, rest) = self.rest.split_at(count);
        room[..count].copy_from_slice(piece);
        self.rest = rest;
        Ok(count)
    }
}

impl CaptureInput for Pieces<'_> {}

/// Files that lie in one row of bytes with room for all, so that they take no memory while a capture is read. Of each file there is a sum
/// of its bytes in their order, and how many they are.
#[derive(Default)]
struct Sums {
    open: HashMap<u64, [(u64, u64); 2]>,
    kept: Vec<(u64, [(u64, u64); 2])>,
    /// How many calls are still done; the next fails, and no other may come.
    left: usize,
}

impl Sums {
    fn with_room(left: usize) -> Sums {
        Sums { open: HashMap::with_capacity(1_000), kept: Vec::with_capacity(2_000_000), left }
    }

    fn call(&mut self, number: u64) -> Result<(), FileFault> {
        assert!(self.left != usize::MAX, "a call after a fault");
        self.left = self.left.wrapping_sub(1);
        if self.left == usize::MAX { Err(FileFault::CannotMake(StreamFile { number, way: Way::Requests })) } else { Ok(()) }
    }
}

impl StreamFiles for Sums {
    fn make(&mut self, number: u64) -> Result<(), FileFault> {
        self.call(number)?;
        assert_eq!(self.open.insert(number, [(0, 0); 2]), None);
        assert!(self.open.len() <= 65_536);
        Ok(())
    }

    fn append(&mut self, file: StreamFile, bytes: &[u8]) -> Result<(), FileFault> {
        self.call(file.number)?;
        let (length, sum) = &mut self.open.get_mut(&file.number).unwrap()[file.way as usize];
        *length += bytes.len() as u64;
        bytes.iter().for_each(|byte| *sum = (*sum ^ u64::from(*byte)).wrapping_mul(0x0100_0000_01b3));
        Ok(())
    }

    fn keep(&mut self, number: u64) -> Result<(), FileFault> {
        self.call(number)?;
        self.kept.push((number, self.open.remove(&number).unwrap()));
        Ok(())
    }
}

/// What was made of a file.
#[derive(Debug, PartialEq)]
struct Made {
    status: u8,
    kept: Vec<(u64, [(u64, u64); 2])>,
    open: usize,
    lines: String,
    said: String,
}

fn made(file: &[u8], most: usize, ports: &[u16], calls: usize) -> Made {
    let mut pieces = Pieces { rest: file, most, numbers: Numbers(most as u64 | 1) };
    let (files, out, err) = (Sums::with_room(calls), OfStd::new(Vec::with_capacity(64 << 20)), OfStd::new(Vec::with_capacity(1_000)));
    let ((status, files, out, err), taken, held) = measured(|| write_streams(StreamsLimits::DEFAULT, ports, &mut pieces, files, out, err));
    assert!(taken <= 48 << 20, "{taken} bytes of memory");
    assert_eq!(held, 0);
    Made { status, kept: files.kept, open: files.open.len(), lines: text(out), said: text(err) }
}

fn text(target: OfStd<Vec<u8>>) -> String {
    String::from_utf8(target.into_inner()).unwrap()
}

/// The status and both outputs.
type Outcome = (u8, String, String);

/// The outcome of a call that writes of a file, in at most so many MiB.
fn outcome(file: &[u8], most: usize, room: isize, write: impl Fn(&mut Pieces, OfStd<Vec<u8>>, OfStd<Vec<u8>>) -> (u8, OfStd<Vec<u8>>, OfStd<Vec<u8>>)) -> Outcome {
    let mut pieces = Pieces { rest: file, most, numbers: Numbers(most as u64 | 1) };
    let (out, err) = (OfStd::new(Vec::with_capacity(64 << 20)), OfStd::new(Vec::with_capacity(1_000)));
    let ((status, out, err), taken, held) = measured(|| write(&mut pieces, out, err));
    assert!(taken <= room << 20, "{taken} bytes of memory");
    assert_eq!(held, 0);
    (status, text(out), text(err))
}

/// The exchanges in a file that are asked for, in this form.
fn exchanges(file: &[u8], most: usize, ports: &[u16], filter: ExchangeFilter, form: ExchangeForm) -> Outcome {
    outcome(file, most, 64, |pieces, out, err| write_exchanges(StreamsLimits::DEFAULT, ExchangeLimits::DEFAULT, ports, StatementTexts::new(), filter, form, Buffering::Block, pieces, out, err))
}

/// The events of the frames in a file.
fn events(file: &[u8], most: usize, ports: &[u16]) -> Outcome {
    outcome(file, most, 70, |pieces, out, err| write_events(StreamsLimits::DEFAULT, ports, None, pieces, out, err))
}

/// The pages on the connection with this number.
fn rows(file: &[u8], most: usize, ports: &[u16], connection: u64) -> Outcome {
    outcome(file, most, 64, |pieces, out, err| write_rows(StreamsLimits::DEFAULT, ports, StatementTypes::new(), connection, pieces, out, err))
}

/// The lines say how long the files are, and the last line how long all of them are.
fn agree(made: &Made) {
    let lines: Vec<Vec<&str>> = made.lines.lines().map(|line| line.split(' ').collect()).collect();
    let number = |word: &str| word.parse::<u64>().unwrap();
    let reported: Vec<_> = lines.iter().filter(|line| line[0] == "connection").map(|line| (number(line[1]), number(line[5]), number(line[11]))).collect();
    let lengths: Vec<_> = made.kept.iter().map(|(number, [requests, responses])| (*number, requests.0, responses.0)).collect();
    assert_eq!(reported, lengths);
    let after = |word| made.said.split(' ').skip_while(|other| *other != word).nth(1).map(|word| number(word.trim())).unwrap();
    assert_eq!(after("bytes"), lengths.iter().map(|(_, requests, responses)| requests + responses).sum());
    assert_eq!(after("gaps"), lines.iter().filter(|line| line[0] == "gap").count() as u64);
    assert_eq!((after("connections"), made.open), (lengths.len() as u64, 0));
}

fn captures() -> Vec<(Vec<u8>, Vec<Vec<u8>>)> {
    let folder = std::env::var("CQLP_CAPTURES").unwrap();
    ["driver", "driver-swapped", "driver-overlap", "driver-snapped", "driver-middle"]
        .map(|name| records(&std::fs::read(format!("{folder}/data/{name}.pcap")).unwrap()))
        .into()
}

/// The header of a pcap file, and its records.
fn records(capture: &[u8]) -> (Vec<u8>, Vec<Vec<u8>>) {
    let (header, mut rest) = capture.split_at(24);
    let mut records = Vec::new();
    while rest.len() >= 16 {
        let length = u32::from_le_bytes(rest[8..12].try_into().unwrap()) as usize;
        let (record, after) = rest.split_at(16 + length);
        records.push(record.to_vec());
        rest = after;
    }
    (header.to_vec(), records)
}

/// Some records, of which some come twice, not at all or in another order, and their packets with bytes changed.
fn changed(numbers: &mut Numbers, records: &[Vec<u8>]) -> Vec<Vec<u8>> {
    let first = numbers.below(records.len());
    let mut packets: Vec<Vec<u8>> = records[first..].iter().take(numbers.one_of(&[1, 4, 12])).cloned().collect();
    for _ in 0..numbers.one_of(&[0, 0, 1, 3]) {
        let (place, other) = (numbers.below(packets.len()), numbers.below(packets.len()));
        match numbers.below(3) {
            0 => packets.swap(place, other),
            1 => packets.insert(place, packets[other].clone()),
            _ if packets.len() > 1 => drop(packets.remove(place)),
            _ => {}
        }
    }
    for _ in 0..numbers.one_of(&[0, 1, 1, 2, 3, 8]) {
        let packet = numbers.below(packets.len());
        let packet = &mut packets[packet][16..];
        // The headers decide most: a byte of them more often than any other.
        let place = numbers.below(packet.len()).min(numbers.one_of(&[usize::MAX, numbers.0 as usize % 66]));
        let byte = numbers.below(256) as u8;
        packet[place] = numbers.one_of(&[0, 1, 2, 4, 0x7f, 0x80, 0xff, byte, packet[place] ^ 1, packet[place].wrapping_add(3)]);
    }
    packets
}

/// What the numbers in a column of a summary add up to.
fn sum_of(summary: &Outcome, column: usize) -> usize {
    summary.1.lines().skip(1).map(|line| line.split_whitespace().nth(column).unwrap().parse::<usize>().unwrap()).sum()
}

#[test]
fn changed_captures() {
    let count: usize = std::env::var("CQLP_STREAMS").map_or(3_000, |text| text.parse().unwrap());
    let bases = captures();
    let mut numbers = Numbers(0x9e37_79b9_7f4a_7c15);
    for first in (0..count).step_by(5_000) {
        let mut file = bases[0].0.clone();
        for _ in first..count.min(first + 5_000) {
            let base = numbers.below(bases.len());
            changed(&mut numbers, &bases[base].1).iter().for_each(|record| file.extend(record));
        }
        // The length of a record or the header of the file, in some of the files.
        if numbers.below(4) == 0 {
            let place = numbers.one_of(&[0, 4, 8, 16, 20, 32, 36]) + numbers.below(4);
            file[place] = numbers.one_of(&[0, 1, 0x7f, 0xff]);
        }
        file.truncate(file.len() - numbers.one_of(&[0, 0, 1, 20, 100]));
        let ports = [36_401, 40_971, 9_042];
        let ports = &ports[..numbers.one_of(&[1, 2, 3])];
        let whole = made(&file, usize::MAX, ports, 1 << 40);
        agree(&whole);
        let most = numbers.one_of(&[1, 20, 2_000, 200_000]);
        assert_eq!(made(&file, most, ports, 1 << 40), whole);
        let faulty = made(&file, most, ports, numbers.below(5_000));
        assert!(faulty.status == 3 || faulty == whole);
        assert!(whole.kept.starts_with(&faulty.kept) && whole.lines.starts_with(&faulty.lines));
        let by_statement = ExchangeForm::Summary(SummaryBy::Statement(Naming::Fingerprint));
        let forms = [ExchangeForm::Lines(LineStyle::PLAIN), ExchangeForm::Json(ValuesShown::No), ExchangeForm::Csv, by_statement];
        let [lines, objects, records, summary] = forms.map(|form| {
            let whole = exchanges(&file, usize::MAX, ports, ExchangeFilter::ALL, form);
            assert_eq!(exchanges(&file, most, ports, ExchangeFilter::ALL, form), whole);
            whole
        });
        assert_eq!((objects.0, objects.1.lines().count(), &objects.2), (lines.0, lines.1.lines().count(), &lines.2));
        assert_eq!((records.0, records.1.lines().count(), &records.2), (lines.0, lines.1.lines().count() + 1, &lines.2));
        assert_eq!((summary.0, &summary.2), (lines.0, &lines.2));
        let (counted, unanswered) = (sum_of(&summary, 2), sum_of(&summary, 4));
        assert_eq!(counted - unanswered, lines.1.lines().filter(|line| line.ends_with(" ms")).count());
        let attribute = SummaryBy::Attribute(numbers.one_of(&[Attribute::Client, Attribute::Node, Attribute::Opcode, Attribute::Error]));
        let by = numbers.one_of(&[SummaryBy::Table, attribute]);
        let by = exchanges(&file, most, ports, ExchangeFilter::ALL, ExchangeForm::Summary(by));
        assert_eq!((by.0, &by.2), (lines.0, &lines.2));
        let seconds = numbers.one_of(&[0, 1, 60, 86_400]);
        let [every, every_object] = [IntervalsAs::Lines, IntervalsAs::Json]
            .map(|shown| exchanges(&file, most, ports, ExchangeFilter::ALL, ExchangeForm::Intervals(seconds, shown)));
        assert_eq!((every.0, &every.2), (lines.0, &lines.2));
        assert_eq!((every_object.0, every_object.1.lines().count() + 1, &every_object.2), (lines.0, every.1.lines().count(), &lines.2));
        (2..=6).for_each(|column| assert_eq!([&by, &every].map(|other| sum_of(other, column)), [sum_of(&summary, column); 2]));
        assert_eq!(events(&file, most, ports), events(&file, usize::MAX, ports));
        let connection = 1 + numbers.below(20) as u64;
        assert_eq!(rows(&file, most, ports, connection), rows(&file, usize::MAX, ports, connection));
        let errors = exchanges(&file, usize::MAX, ports, ExchangeFilter { errors: true, ..ExchangeFilter::ALL }, ExchangeForm::Lines(LineStyle::PLAIN));
        let [with_values, objects_with] = [ExchangeForm::Lines(LineStyle { values: ValuesShown::Yes, ..LineStyle::PLAIN }), ExchangeForm::Json(ValuesShown::Yes)].map(|form| exchanges(&file, most, ports, ExchangeFilter::ALL, form));
        assert_eq!((with_values.0, with_values.1.lines().count(), &with_values.2), (lines.0, lines.1.lines().count(), &lines.2));
        assert_eq!((objects_with.0, objects_with.1.lines().count(), &objects_with.2), (lines.0, lines.1.lines().count(), &lines.2));
        let mut all = lines.1.lines();
        assert!(errors.1.lines().all(|line| all.any(|other| other == line)));
    }
}
