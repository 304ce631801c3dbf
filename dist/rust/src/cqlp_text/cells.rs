// Written by dist/erase from crates/cqlp_text/src/cells.rt.
//! Cells as text.

use crate::cqlp_text::line_pen::LinePen;
use crate::cqlp_text::pen::Pen;
use crate::cqlp_text::text_writer::TextWriter;
use crate::cqlp_grammar::SinkFault;
use crate::cqlp_kind::Scalar;
use crate::cqlp_note::Target;

/// How many bytes a number has at most that is written in decimal digits.
const WIDE: usize = 16;

/// Appends the text of a cell: a number in decimal digits, a text in quotes, bytes as hex text, and so on. A fault is
/// the writer's own.
///
/// # Errors
///
/// The fault of the target.
pub fn cell_text<W: Target>(scalar: &Scalar<'_>, w: &mut W) -> Result<(), SinkFault> {
    let mut writer = TextWriter::over(w);
    let written = writer.put_whole_cell(scalar);
    let _ = writer.into_target();
    written
}

impl<W: Target> TextWriter<LinePen<'_, W>> {
    /// Takes the text of a cell, and passes all on.
    fn put_whole_cell(&mut self, scalar: &Scalar<'_>) -> Result<(), SinkFault> {
        self.put_cell(scalar)?;
        self.flush()
    }
}

impl<P: Pen> TextWriter<P> {
    /// Takes the text of a cell. Those of the most common kinds are written in line.
    #[inline(always)]
    pub fn put_cell(&mut self, scalar: &Scalar<'_>) -> Result<(), SinkFault> {
        match *scalar {
            Scalar::Int(number) => self.put_signed(i64::from(number)),
            Scalar::Bigint(number) => self.put_signed(number),
            Scalar::Varchar(text) => self.put_quoted(text),
            Scalar::Boolean(value) => self.put_boolean(value),
            _ => self.put_any_cell(scalar),
        }
    }

    /// Takes the text of a cell of any kind, in code of its own.
    #[inline(never)]
    pub(crate) fn put_any_cell(&mut self, scalar: &Scalar<'_>) -> Result<(), SinkFault> {
        match *scalar {
            Scalar::Custom(bytes) | Scalar::Blob(bytes) | Scalar::Raw(bytes) => {
                self.put_hex_text(bytes)
            }
            Scalar::Double(bytes) => self.put_double(bytes),
            Scalar::Float(bytes) => self.put_float(bytes),
            Scalar::Varint(bytes) => self.put_varint(bytes),
            Scalar::Decimal { scale, unscaled } => self.put_decimal(scale, unscaled),
            Scalar::Uuid(bytes) | Scalar::Timeuuid(bytes) => self.put_uuid(bytes),
            Scalar::Ascii(text) | Scalar::Varchar(text) => self.put_quoted(text),
            Scalar::Bigint(number) | Scalar::Counter(number) | Scalar::Timestamp(number) => {
                self.put_signed(number)
            }
            Scalar::Int(number) => self.put_signed(i64::from(number)),
            Scalar::Smallint(number) => self.put_signed(i64::from(number)),
            Scalar::Tinyint(number) => self.put_signed(i64::from(number)),
            Scalar::Time(nanoseconds) => self.put_time(nanoseconds),
            Scalar::Date(number) => self.put_date(number),
            Scalar::Boolean(value) => self.put_boolean(value),
            Scalar::Inet(address) => self.put_address(address),
        }
    }

    /// Takes the name of a truth value, whose length each of the two calls knows.
    #[inline(always)]
    pub(crate) fn put_boolean(&mut self, value: bool) -> Result<(), SinkFault> {
        if value {
            self.put(b"true")
        } else {
            self.put(b"false")
        }
    }

    /// Takes the bytes of a floating-point number.
    fn put_float(&mut self, bytes: [u8; 4]) -> Result<(), SinkFault> {
        self.put(b"0x")?;
        self.put_four(&bytes)
    }

    /// Takes the bytes of a floating-point number of twice as many.
    fn put_double(&mut self, bytes: [u8; 8]) -> Result<(), SinkFault> {
        self.put(b"0x")?;
        self.put_eight(&bytes)
    }

    /// Takes four bytes as eight hexadecimal digits.
    #[inline(always)]
    fn put_four(&mut self, bytes: &[u8; 4]) -> Result<(), SinkFault> {
        let mut digits = [0; 8];
        crate::hex::encode_to_slice(bytes, &mut digits).unwrap();
        self.put(&digits)
    }

    /// Takes eight bytes as sixteen hexadecimal digits.
    #[inline(always)]
    fn put_eight(&mut self, bytes: &[u8; 8]) -> Result<(), SinkFault> {
        let mut digits = [0; 16];
        crate::hex::encode_to_slice(bytes, &mut digits).unwrap();
        self.put(&digits)
    }

    /// Takes a number of any length: in decimal digits up to 16 bytes, and else its bytes.
    #[inline(never)]
    pub fn put_varint(&mut self, bytes: &[u8]) -> Result<(), SinkFault> {
        if bytes.len() > WIDE {
            return self.put_hex_text(bytes);
        }
        let number = i128::from_be_bytes(extended(bytes));
        match i64::try_from(number) {
            Ok(number) => self.put_signed(number),
            Err(_) => self.put_wide(number),
        }
    }

    /// Takes a number of up to 128 bits as decimal digits.
    #[inline(never)]
    fn put_wide(&mut self, number: i128) -> Result<(), SinkFault> {
        let mut digits = crate::itoa::Buffer::new();
        self.put(digits.format(number).as_bytes())
    }

    /// Takes a decimal: the unscaled number, `e`, and the negated scale.
    #[inline(never)]
    pub fn put_decimal(&mut self, scale: i32, unscaled: &[u8]) -> Result<(), SinkFault> {
        self.put_varint(unscaled)?;
        self.put(b"e")?;
        self.put_negated(scale)
    }

    fn put_negated(&mut self, number: i32) -> Result<(), SinkFault> {
        self.put_signed(-i64::from(number))
    }

    /// Takes a time of day in nanoseconds since midnight; a negative number, which no cell has, as a number.
    #[inline(never)]
    pub fn put_time(&mut self, nanoseconds: i64) -> Result<(), SinkFault> {
        match u64::try_from(nanoseconds) {
            Ok(nanoseconds) => self.put_time_of_day(nanoseconds),
            Err(_) => self.put_signed(nanoseconds),
        }
    }

    fn put_time_of_day(&mut self, nanoseconds: u64) -> Result<(), SinkFault> {
        self.put_digits(2, nanoseconds / 3_600_000_000_000)?;
        self.put(b":")?;
        self.put_digits(2, nanoseconds / 60_000_000_000 % 60)?;
        self.put(b":")?;
        self.put_digits(2, nanoseconds / 1_000_000_000 % 60)?;
        self.put(b".")?;
        self.put_digits(9, nanoseconds % 1_000_000_000)
    }
}

/// At most 16 bytes of a two's complement, with their sign extended to 16.
fn extended(bytes: &[u8]) -> [u8; WIDE] {
    let mut wide = [sign_byte(bytes); WIDE];
    wide[WIDE - bytes.len()..].copy_from_slice(bytes);
    wide
}

/// The byte that goes before a two's complement and leaves its number.
fn sign_byte(bytes: &[u8]) -> u8 {
    match bytes {
        [first, ..] if *first >= 128 => 255,
        _ => 0,
    }
}
