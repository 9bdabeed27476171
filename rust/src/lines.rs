//! Lines of hexadecimal: taking them from bytes, reading and writing them.

use crate::refusal::Refusal;
use crate::vector::Vector;

/// One line of input: its bytes without the LF, and whether the LF was there.
#[derive(Clone, Copy, Debug)]
pub struct Line<'a> {
    pub text: &'a [u8],
    pub ended: bool,
}

impl<'a> Line<'a> {
    /// From bytes with the LF, if it has one.
    pub fn from_raw(raw: &'a [u8]) -> Line<'a> {
        match raw.split_last() {
            Some((b'\n', text)) => Line { text, ended: true },
            _ => Line { text: raw, ended: false },
        }
    }

    /// The type that the line's first two digits name. Judged before the rest
    /// of the line, so that a misshapen opening is still an opening.
    pub fn type_byte(&self) -> Option<u8> {
        let digits = self.text.get(..2)?;
        Some(digit(digits[0])? * 16 + digit(digits[1])?)
    }

    /// The bytes that the digits stand for.
    pub fn decode(&self) -> Result<Vec<u8>, Refusal> {
        if !self.ended || !self.text.len().is_multiple_of(2) {
            return Err(Refusal::Shape);
        }
        let pairs = self.text.chunks(2);
        let bytes: Option<Vec<u8>> =
            pairs.map(|pair| Some(digit(pair[0])? * 16 + digit(pair[1])?)).collect();
        bytes.ok_or(Refusal::Shape)
    }
}

/// Input cut into lines with their LF. What follows the last LF is a line
/// without LF, if it is not empty.
pub fn raw_lines(input: &[u8]) -> Vec<&[u8]> {
    input.split_inclusive(|byte| *byte == b'\n').collect()
}

/// Lower-case hexadecimal only.
fn digit(character: u8) -> Option<u8> {
    match character {
        b'0'..=b'9' => Some(character - b'0'),
        b'a'..=b'f' => Some(character - b'a' + 10),
        _ => None,
    }
}

pub fn encode(bytes: &[u8]) -> Vec<u8> {
    const DIGITS: &[u8; 16] = b"0123456789abcdef";
    let halves = bytes.iter().flat_map(|byte| [byte >> 4, byte & 15]);
    halves.map(|half| DIGITS[usize::from(half)]).collect()
}

/// A reader over a lent line holds the line and its place in it.
pub struct Reader<'a> {
    bytes: &'a [u8],
    place: usize,
}

impl<'a> Reader<'a> {
    pub fn new(bytes: &'a [u8]) -> Reader<'a> {
        Reader { bytes, place: 0 }
    }

    fn take<const COUNT: usize>(&mut self) -> Result<[u8; COUNT], Refusal> {
        let part = self.bytes.get(self.place..self.place + COUNT).ok_or(Refusal::Shape)?;
        self.place += COUNT;
        part.try_into().map_err(|_| Refusal::Shape)
    }

    pub fn byte(&mut self) -> Result<u8, Refusal> {
        self.take::<1>().map(|bytes| bytes[0])
    }

    pub fn two(&mut self) -> Result<u16, Refusal> {
        self.take::<2>().map(u16::from_be_bytes)
    }

    pub fn four(&mut self) -> Result<u32, Refusal> {
        self.take::<4>().map(u32::from_be_bytes)
    }

    pub fn eight_signed(&mut self) -> Result<i64, Refusal> {
        self.take::<8>().map(i64::from_be_bytes)
    }

    pub fn vector(&mut self, n: usize) -> Result<Vector, Refusal> {
        let entries: Result<Vec<u32>, Refusal> = (0..n).map(|_| self.four()).collect();
        entries.map(Vector)
    }

    pub fn end(&self) -> Result<(), Refusal> {
        if self.place == self.bytes.len() {
            Ok(())
        } else {
            Err(Refusal::Shape)
        }
    }
}

/// The fields of an opening line, in shape but not yet judged by range.
pub struct OpeningLine {
    pub n: u8,
    pub own: u8,
    pub capacity: u16,
    pub kinds: Vec<u8>,
}

pub fn read_opening(bytes: &[u8]) -> Result<OpeningLine, Refusal> {
    let mut reader = Reader::new(bytes);
    expect_type(&mut reader, 0x10)?;
    let n = reader.byte()?;
    let own = reader.byte()?;
    let capacity = reader.two()?;
    let count = reader.byte()?;
    let kinds: Result<Vec<u8>, Refusal> = (0..count).map(|_| reader.byte()).collect();
    reader.end()?;
    Ok(OpeningLine { n, own, capacity, kinds: kinds? })
}

/// What an operation asks for, in shape but not yet judged.
#[derive(Clone, Debug)]
pub struct Request {
    pub object: u8,
    pub code: u8,
    pub value: u32,
}

fn read_request(reader: &mut Reader) -> Result<Request, Refusal> {
    Ok(Request { object: reader.byte()?, code: reader.byte()?, value: reader.four()? })
}

#[derive(Clone, Debug)]
pub struct Frame {
    pub sender: u8,
    pub request: Request,
    pub vector: Vector,
}

/// A frame of a group of `n` stations; another N is refused.
pub fn read_frame(bytes: &[u8], n: usize) -> Result<Frame, Refusal> {
    let mut reader = Reader::new(bytes);
    expect_type(&mut reader, 0x20)?;
    if usize::from(reader.byte()?) != n {
        return Err(Refusal::Shape);
    }
    let sender = reader.byte()?;
    let request = read_request(&mut reader)?;
    let vector = reader.vector(n)?;
    reader.end()?;
    Ok(Frame { sender, request, vector })
}

pub fn frame_length(n: usize) -> usize {
    9 + 4 * n
}

pub fn write_frame(frame: &Frame) -> Vec<u8> {
    let n = frame.vector.0.len();
    let mut bytes = vec![0x20, n as u8, frame.sender, frame.request.object, frame.request.code];
    bytes.extend(frame.request.value.to_be_bytes());
    push_vector(&mut bytes, &frame.vector);
    bytes
}

pub fn push_vector(bytes: &mut Vec<u8>, vector: &Vector) {
    for entry in &vector.0 {
        bytes.extend(entry.to_be_bytes());
    }
}

pub fn read_issue(bytes: &[u8]) -> Result<Request, Refusal> {
    let mut reader = Reader::new(bytes);
    expect_type(&mut reader, 0x21)?;
    let request = read_request(&mut reader)?;
    reader.end()?;
    Ok(request)
}

pub fn read_settle(bytes: &[u8]) -> Result<u16, Refusal> {
    let mut reader = Reader::new(bytes);
    expect_type(&mut reader, 0x30)?;
    let limit = reader.two()?;
    reader.end()?;
    Ok(limit)
}

/// Object, question and value of a question line.
pub fn read_question(bytes: &[u8]) -> Result<(u8, u8, u32), Refusal> {
    let mut reader = Reader::new(bytes);
    expect_type(&mut reader, 0x40)?;
    let fields = (reader.byte()?, reader.byte()?, reader.four()?);
    reader.end()?;
    Ok(fields)
}

pub fn expect_type(reader: &mut Reader, wanted: u8) -> Result<(), Refusal> {
    if reader.byte()? == wanted {
        Ok(())
    } else {
        Err(Refusal::Shape)
    }
}
