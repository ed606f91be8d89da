//! Request lines, answer lines and blocks of lines.

use crate::intake::in_range;
use crate::rating::{sheet, Sheet};
use crate::refusal::{
    Answered, BAND_COUNT, BAND_RANGE, NOT_A_REQUEST, OUTPUT_TOO_SMALL, READING_MISSING,
};

/// The longest request line, with its line feed.
const LONGEST: usize = 512;

/// The value that stands for a missing band; no band text means it.
const MISSING: i32 = i32::MAX;

/// What a request line says.
struct Request {
    kind: u32,
    /// Where the key's tab stands.
    key_end: usize,
    /// The number of bands; they are kept where they are no more than sixteen.
    count: usize,
    values: [i32; 16],
    limit: bool,
    /// The bytes of the line, with its line feed.
    length: usize,
}

/// A byte of a line; past the end it is 0, which no request has.
#[inline(always)]
fn byte(line: &[u8], place: usize) -> u8 {
    line.get(place).copied().unwrap_or(0)
}

/// A digit's value; 10 or more for any other byte.
#[inline(always)]
fn digit(line: &[u8], place: usize) -> u32 {
    u32::from(byte(line, place).wrapping_sub(b'0'))
}

/// The request at the front of some bytes, up to its line feed.
fn request(line: &[u8]) -> Option<Request> {
    let kind = match line.get(..3)? {
        b"A3\t" => 0,
        b"A1\t" => 1,
        b"I3\t" => 2,
        b"I1\t" => 3,
        _ => return None,
    };
    let key_end = key_end(line)?;
    let mut values = [0; 16];
    let mut limit = false;
    let mut count = 0;
    let mut place = key_end;
    while byte(line, place) == b'\t' {
        let (value, marked, end) = band(line, place + 1)?;
        values[count % 16] = value;
        limit |= marked;
        count += 1;
        place = end;
    }
    if count == 0 || byte(line, place) != b'\n' {
        return None;
    }
    Some(Request { kind, key_end, count, values, limit, length: place + 1 })
}

/// Whether a byte may stand in a key.
#[inline(always)]
fn in_key(byte: u8) -> bool {
    byte.is_ascii_alphanumeric() || byte == b'-'
}

/// Whether a text is a key: 1 to 32 letters, digits and hyphens.
pub fn is_key(text: &[u8]) -> bool {
    (1..=32).contains(&text.len()) && text.iter().all(|&byte| in_key(byte))
}

/// Where the tab after a key of 1 to 32 letters, digits and hyphens stands.
#[inline(always)]
fn key_end(line: &[u8]) -> Option<usize> {
    let mut end = 3;
    while in_key(byte(line, end)) {
        end += 1;
    }
    let good = byte(line, end) == b'\t' && (4..=35).contains(&end);
    good.then_some(end)
}

/// The band text from a place on: its tenths or `MISSING`, its limit mark, and its end.
#[inline(always)]
fn band(line: &[u8], start: usize) -> Option<(i32, bool, usize)> {
    let limit = byte(line, start) == b'L';
    let sign = start + usize::from(limit);
    let minus = byte(line, sign) == b'-';
    let first = sign + usize::from(minus);
    let mut whole = digit(line, first);
    if whole > 9 {
        return (minus && !limit).then_some((MISSING, false, first));
    }
    let mut point = first + 1;
    if whole > 0 {
        // a second and a third digit; after a 0 none may follow
        while point < first + 3 && digit(line, point) < 10 {
            whole = 10 * whole + digit(line, point);
            point += 1;
        }
    }
    let tenth = digit(line, point + 1);
    if byte(line, point) != b'.' || tenth > 9 {
        return None;
    }
    let tenths = (10 * whole + tenth) as i32;
    if minus && tenths == 0 {
        return None;
    }
    Some((if minus { -tenths } else { tenths }, limit, point + 2))
}

/// The sheet of a request: 1, then bands from the lowest, each 3, then 4.
#[inline(always)]
fn sheet_of(request: &Request) -> Answered<Sheet> {
    let kept = &request.values[..request.count.min(16)];
    let rated = if request.count > 16 { Err(BAND_COUNT) } else { sheet(request.kind, kept) };
    rated.map_err(|refusal| if refusal == BAND_RANGE { refusal_of_bands(kept) } else { refusal })
}

/// Which refusal the lowest band has that is not in range; a missing one is not.
fn refusal_of_bands(values: &[i32]) -> u32 {
    match values.iter().find(|&&value| !in_range(value)) {
        Some(&MISSING) => READING_MISSING,
        _ => BAND_RANGE,
    }
}

/// An answer line being written. The longest has 60 bytes, and a number is put as 8.
struct Text {
    bytes: [u8; 72],
    length: usize,
}

impl Text {
    /// A line that starts with these bytes, a kind and a key at most.
    #[inline(always)]
    fn starting(head: &[u8]) -> Text {
        let mut bytes = [0; 72];
        bytes[..head.len()].copy_from_slice(head);
        Text { bytes, length: head.len() }
    }

    #[inline(always)]
    fn put(&mut self, bytes: &[u8; 2]) {
        self.bytes[self.length..self.length + 2].copy_from_slice(bytes);
        self.length += 2;
    }

    /// A number and a tab: eight bytes from the table, of which the last is their length.
    #[inline(always)]
    fn number(&mut self, number: i32) {
        let field = &FIELDS[(number + 256) as usize];
        self.bytes[self.length..self.length + 8].copy_from_slice(field);
        self.length += usize::from(field[7]);
    }

    /// A refusal's number and the line feed.
    fn refused(mut self, refusal: u32) -> Text {
        self.number(refusal as i32);
        self.bytes[self.length - 1] = b'\n';
        self
    }

    fn text(&self) -> &[u8] {
        &self.bytes[..self.length]
    }
}

/// The numbers from -256 to 255 in decimal, each with a tab, and their lengths. No rating, term
/// or number of shifts of accepted bands is farther from 0.
static FIELDS: [[u8; 8]; 512] = {
    let mut fields = [[0; 8]; 512];
    let mut place = 0;
    while place < 512 {
        fields[place] = field(place as i32 - 256);
        place += 1;
    }
    fields
};

const fn field(number: i32) -> [u8; 8] {
    let mut field = [0; 8];
    let mut length = 0;
    if number < 0 {
        field[0] = b'-';
        length = 1;
    }
    let mut unit = 100;
    while unit > 0 {
        let digit = number.abs() / unit;
        if digit > 0 || unit == 1 {
            field[length] = b'0' + (digit % 10) as u8;
            length += 1;
        }
        unit /= 10;
    }
    field[length] = b'\t';
    field[7] = length as u8 + 1;
    field
}

/// The answer to a request that stands at the front of some bytes.
#[inline(always)]
fn answer(line: &[u8], request: &Request) -> Text {
    let mut text = Text::starting(&line[..request.key_end + 1]);
    let sheet = match sheet_of(request) {
        Ok(sheet) => sheet,
        Err(refusal) => return text.refused(refusal),
    };
    text.put(b"0\t");
    text.number(sheet.rating);
    text.number(sheet.first);
    match sheet.second {
        Some(second) => text.number(second),
        None => text.put(b"-\t"),
    }
    text.number(sheet.shifts);
    text.put(if request.limit { b"L\n" } else { b"=\n" });
    text
}

/// The answer to what is not a request.
fn no_request() -> Text {
    Text::starting(b"?\t?\t").refused(NOT_A_REQUEST)
}

/// The line call: the answer to one line, written from a place on; its length, or 10.
pub fn answer_line(line: &[u8], out: &mut [u8], at: usize) -> Answered<usize> {
    let text = match request(line) {
        Some(request) if request.length == line.len() && line.len() <= LONGEST => {
            answer(line, &request)
        }
        _ => no_request(),
    };
    let room = out.get_mut(at..).and_then(|tail| tail.get_mut(..text.length));
    room.ok_or(OUTPUT_TOO_SMALL)?.copy_from_slice(text.text());
    Ok(text.length)
}

/// How far a block of lines got.
pub struct Progress {
    pub used: usize,
    pub wrote: usize,
    /// A line longer than any request is answered, and its rest is to be passed over.
    pub skipping: bool,
}

/// The block call: answers the whole lines of some input for which the output has room; at the
/// end of the input a last piece without its line feed counts as a line.
pub fn answer_block(input: &[u8], skipping: bool, last: bool, out: &mut [u8]) -> Progress {
    let mut progress = Progress { used: 0, wrote: 0, skipping };
    while progress.used < input.len() {
        let rest = &input[progress.used..];
        if progress.skipping {
            let end = line_end(rest);
            progress.skipping = end.is_none() && !last;
            progress.used += end.unwrap_or(rest.len());
            continue;
        }
        let front = &rest[..rest.len().min(LONGEST)];
        let (text, length) = match request(front) {
            Some(request) => (answer(front, &request), Some(request.length)),
            None => (no_request(), line_end(rest)),
        };
        if length.is_none() && !last && rest.len() < LONGEST {
            break; // the line may still become a request
        }
        let end = progress.wrote + text.length;
        let Some(room) = out.get_mut(progress.wrote..end) else { break };
        room.copy_from_slice(text.text());
        progress.wrote = end;
        progress.used += length.unwrap_or(rest.len());
        progress.skipping = length.is_none() && !last;
    }
    progress
}

/// The length of the first line with its line feed, if it has one.
fn line_end(bytes: &[u8]) -> Option<usize> {
    bytes.iter().position(|&byte| byte == b'\n').map(|place| place + 1)
}
