//! The frame file.

use super::Row;

#[derive(Default)]
pub struct Frame {
    pub n: u32,
    pub m: u32,
    pub seed: u32,
    pub takes: Vec<u32>,
    pub list: Vec<Row>,
    pub money: Vec<i64>,
    pub cells: Vec<usize>,
}

/// What is wrong in a file: number, line and column.
pub type Wrong = (u8, u32, u32);

// A number without leading zero, capped far above any range.
fn number(field: &[u8]) -> Option<u64> {
    match field {
        [] => return None,
        [b'0', _, ..] => return None,
        _ => (),
    }
    let mut value: u64 = 0;
    for byte in field {
        if !byte.is_ascii_digit() {
            return None;
        }
        value = (value * 10 + u64::from(byte - b'0')).min(1_000_000_000_000);
    }
    Some(value)
}

fn natural(field: &[u8], low: u64, high: u64) -> Result<u64, u8> {
    let value = number(field).ok_or(30)?;
    if value < low || value > high { Err(31) } else { Ok(value) }
}

fn money(field: &[u8]) -> Result<i64, u8> {
    match field {
        [b'-', digits @ ..] => match number(digits) {
            None | Some(0) => Err(30),
            Some(value) if value > 1_000_000 => Err(31),
            Some(value) => Ok(-(value as i64)),
        },
        _ => Ok(natural(field, 0, 1_000_000)? as i64),
    }
}

// The fields of a line, read one after another.
struct Fields<'a> {
    rest: Option<&'a [u8]>,
    line: u32,
    column: u32,
}

impl<'a> Fields<'a> {
    fn new(text: &'a [u8], line: u32) -> Self {
        Fields { rest: Some(text), line, column: 0 }
    }

    fn next<T>(&mut self, read: impl Fn(&[u8]) -> Result<T, u8>) -> Result<T, Wrong> {
        self.column += 1;
        let text = self.rest.ok_or((29, self.line, self.column))?;
        let field = match text.iter().position(|byte| *byte == b',') {
            Some(i) => {
                self.rest = Some(&text[i + 1..]);
                &text[..i]
            }
            None => {
                self.rest = None;
                text
            }
        };
        read(field).map_err(|number| (number, self.line, self.column))
    }

    fn end(&self) -> Result<(), Wrong> {
        match self.rest {
            None => Ok(()),
            Some(_) => Err((29, self.line, self.column + 1)),
        }
    }
}

impl Frame {
    fn read_header(&mut self, mut fields: Fields) -> Result<(), Wrong> {
        self.n = fields.next(|f| natural(f, 1, 1024))? as u32;
        self.m = fields.next(|f| natural(f, 1, 1024))? as u32;
        self.seed = fields.next(|f| natural(f, 1, 4_294_967_295))? as u32;
        fields.end()
    }

    fn read_takes(&mut self, mut fields: Fields) -> Result<(), Wrong> {
        while self.takes.len() < 64 && (fields.rest.is_some() || self.takes.is_empty()) {
            self.takes.push(fields.next(|f| natural(f, 1, 1024))? as u32);
        }
        fields.end()
    }

    fn read_unit(&mut self, mut fields: Fields) -> Result<(), Wrong> {
        if self.list.len() == 1024 {
            return Err((32, fields.line, 1));
        }
        let stratum = fields.next(|f| natural(f, 0, 65_535))? as u16;
        let cluster = fields.next(|f| natural(f, 0, 65_535))? as u16;
        let size = fields.next(|f| natural(f, 1, 10_000))? as u32;
        self.money.push(fields.next(money)?);
        self.cells.push(fields.next(|f| natural(f, 0, 5))? as usize);
        self.list.push(Row { stratum, cluster, size });
        fields.end()
    }
}

pub fn read(bytes: &[u8]) -> Result<Frame, Wrong> {
    if bytes.len() > 32_768 {
        return Err((33, 0, 0));
    }
    let mut frame = Frame::default();
    let mut line = 0;
    for whole in bytes.split_inclusive(|byte| *byte == b'\n') {
        line += 1;
        let text = whole.strip_suffix(b"\n").ok_or((29, line, 1))?;
        let fields = Fields::new(text, line);
        match line {
            1 => frame.read_header(fields)?,
            2 => frame.read_takes(fields)?,
            _ => frame.read_unit(fields)?,
        }
    }
    match line {
        0 | 1 => Err((29, line + 1, 1)),
        2 => Err((32, 3, 1)),
        _ => Ok(frame),
    }
}
