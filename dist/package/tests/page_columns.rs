//! Pages read into columns: each cut of a page's bytes, cells without a value, batches that fill, and what the columns do not take.
use cqlp::columns::{BatchLimits, Columns, Filled, PageColumns, Stop};
use cqlp::{Decoder, Event, Kind, Limits, Sink, SinkFault};

const LIMITS: BatchLimits = BatchLimits { columns: 4, rows: 2, bytes: 1 << 10, content: 1 << 6 };
const KINDS: [Kind; 3] = [Kind::Int, Kind::Varchar, Kind::Boolean];

/// What the columns do not take, in words, at most so many.
struct Others {
    words: Vec<String>,
    room: usize,
}

impl Sink for Others {
    fn take(&mut self, at: u64, event: &Event<'_>) -> Result<(), SinkFault> {
        if self.words.len() == self.room {
            return Err(SinkFault);
        }
        self.words.push(format!("{at} {event:?}"));
        Ok(())
    }
}

/// A frame of a page whose columns have these options, with these cells.
fn page(options: &[u16], rows: u32, cells: &[Option<&[u8]>]) -> Vec<u8> {
    let mut body = [0, 0, 0, 2, 0, 0, 0, 1].to_vec();
    body.extend((options.len() as u32).to_be_bytes());
    body.extend(b"\0\x01k\0\x01t");
    for option in options {
        body.extend(b"\0\x01c");
        body.extend(option.to_be_bytes());
    }
    body.extend(rows.to_be_bytes());
    for cell in cells {
        body.extend(cell.map_or(-1, |cell| cell.len() as i32).to_be_bytes());
        body.extend(cell.unwrap_or_default());
    }
    let mut frame = [0x84, 0, 0, 1, 8].to_vec();
    frame.extend((body.len() as u32).to_be_bytes());
    frame.extend(body);
    frame
}

fn three_rows() -> Vec<u8> {
    let (one, yes): (&[u8], &[u8]) = (&[0, 0, 0, 1], &[1]);
    page(&[9, 13, 4], 3, &[Some(one), Some(b"abc"), Some(yes), None, Some(b""), Some(b""), Some(b""), None, Some(&[0])])
}

fn reader(kinds: &[Kind], room: usize) -> PageColumns<Others> {
    PageColumns::new(Columns::new(LIMITS, kinds).unwrap(), Others { words: Vec::new(), room })
}

/// The values, the offsets and the bits of a column.
type Arrays = (Vec<u8>, Vec<u64>, Vec<u8>, Vec<u8>);

/// The arrays of the columns, and where they were full.
fn arrays(columns: &Columns) -> Vec<Arrays> {
    columns.columns().iter().map(|c| (c.values().to_vec(), c.offsets().to_vec(), c.validity().to_vec(), c.empties().to_vec())).collect()
}

/// All batches of the pieces, the rest last, and the other events.
fn read(pieces: &[&[u8]]) -> (Vec<Vec<Arrays>>, Vec<String>) {
    let mut decoder = Decoder::new(Limits::DEFAULT).unwrap();
    let (mut page, mut batches) = (reader(&KINDS, usize::MAX), Vec::new());
    for piece in pieces {
        let mut used = 0;
        loop {
            let filled = page.read(&mut decoder, &piece[used..]);
            used += filled.used;
            match filled.stop {
                Stop::More => break,
                Stop::Full => {
                    assert_eq!((page.columns.rows(), page.columns.is_full()), (2, true));
                    assert_eq!(page.read(&mut decoder, &piece[used..]), Filled { used: 0, stop: Stop::Full });
                    batches.push(arrays(&page.columns));
                    page.columns.clear();
                }
                Stop::Other => {}
                stop => panic!("{stop:?}"),
            }
        }
        assert_eq!(used, piece.len());
    }
    batches.push(arrays(&page.columns));
    (batches, page.other.words)
}

#[test]
fn each_cut_gives_the_same_arrays() {
    let frame = three_rows();
    let (batches, others) = read(&[&frame]);
    let ints = (vec![1, 0, 0, 0, 0, 0, 0, 0], vec![], vec![0b01], vec![0]);
    let texts = (b"abc".to_vec(), vec![0, 3, 3], vec![0b11], vec![0b10]);
    let flags = (vec![0b01], vec![], vec![0b01], vec![0b10]);
    assert_eq!(batches[0], [ints, texts, flags]);
    let last = [(vec![0; 4], vec![], vec![0], vec![1]), (vec![], vec![0, 0], vec![0], vec![0]), (vec![0], vec![], vec![1], vec![0])];
    assert_eq!((batches.len(), &batches[1][..]), (2, &last[..]));
    assert!(others[0].starts_with("0 Frame") && others.last().unwrap().contains("End"));
    for cut in 0..=frame.len() {
        let (left, right) = frame.split_at(cut);
        assert_eq!(read(&[left, right]), (batches.clone(), others.clone()), "{cut}");
    }
    let bytes: Vec<&[u8]> = frame.chunks(1).collect();
    assert_eq!(read(&bytes), (batches, others));
}

#[test]
fn what_is_not_taken_goes_to_the_other_sink() {
    let frame = page(&[9, 13, 4], 1, &[Some(&[0, 0, 0, 7]), Some(b"x"), Some(&[1])]);
    let mut decoder = Decoder::new(Limits::DEFAULT).unwrap();
    let mut other = reader(&[Kind::Int, Kind::Int, Kind::Boolean], usize::MAX);
    let (mut used, mut stops) = (0, Vec::new());
    while used < frame.len() || stops.last() == Some(&Stop::Other) {
        let filled = other.read(&mut decoder, &frame[used..]);
        used += filled.used;
        stops.push(filled.stop);
    }
    let words = &other.other.words;
    assert!(words[words.len() - 3].contains("Varchar(\"x\")") && words[words.len() - 2].contains("Boolean(true)"), "{words:?}");
    assert_eq!((stops.len(), stops.pop()), (words.len() + 1, Some(Stop::More)));
    assert_eq!(other.columns.columns()[0].values(), [7, 0, 0, 0]);
}

#[test]
fn a_sink_that_fails_and_a_refusal_stop_it() {
    let frame = three_rows();
    let mut decoder = Decoder::new(Limits::DEFAULT).unwrap();
    let mut page = reader(&KINDS, 1);
    assert_eq!(page.read(&mut decoder, &frame), Filled { used: 9, stop: Stop::Other });
    assert_eq!(page.read(&mut decoder, &frame[9..]).stop, Stop::Failed);
    let mut decoder = Decoder::new(Limits::DEFAULT).unwrap();
    let mut page = reader(&KINDS, usize::MAX);
    for _ in 0..2 {
        let filled = page.read(&mut decoder, &[0xff; 9]);
        assert!(filled.used == 0 && matches!(filled.stop, Stop::Refused(refusal) if refusal.at == 0), "{filled:?}");
    }
}
