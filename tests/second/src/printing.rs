//! The printing program: a frame in, its lines out.

use std::fmt::Write;

use crate::fault::Fault;
use crate::header::Header;
use crate::index::Index;
use crate::refusal::Refusal;

const PRINT_WORDS: usize = 8_192;
const PRINT_FENCES: usize = 1_024;
const PRINT_ROWS: usize = 4_000;
/// Digits before the column.
const SHAPE_DIGITS: usize = 16;

/// What the program prints for an input.
pub fn print(input: &[u8], fault: Fault) -> String {
    match try_print(input, fault) {
        Ok(text) => text,
        Err(refusal) => format!("ff{:02x}\n", refusal.number()),
    }
}

fn try_print(input: &[u8], fault: Fault) -> Result<String, Refusal> {
    let (shape, column) = parse(input, fault).ok_or(Refusal::BadFrame)?;
    let more = usize::from(fault == Fault::PrintMoreMemory);
    let mut index = Index::new(PRINT_WORDS + more, PRINT_FENCES, fault);
    index.load(shape, &column)?;
    let mut text = String::new();
    for value in 0..shape.values {
        write!(text, "{value:02x}").expect("text grows");
        for word in index.query(value)? {
            write!(text, "{word:08x}").expect("text grows");
        }
        text.push('\n');
    }
    Ok(text)
}

/// R, d, T, G and the column of a well-formed line.
fn parse(input: &[u8], fault: Fault) -> Option<(Header, Vec<u8>)> {
    let mut line = input.strip_suffix(b"\n").unwrap_or(input);
    while fault == Fault::PrintManyNewlines && line.ends_with(b"\n") {
        line = &line[..line.len() - 1];
    }
    let most = PRINT_ROWS + usize::from(fault == Fault::PrintTooManyRows);
    if line.len() < SHAPE_DIGITS || line.len() % 2 == 1 {
        return None;
    }
    let (shape, column) = line.split_at(SHAPE_DIGITS);
    if column.len() / 2 > most {
        return None;
    }
    let read = |digits: &[u8]| hexadecimal(digits, fault);
    let header = Header {
        rows: read(&shape[..8])?,
        issued: 0,
        values: read(&shape[8..10])?,
        threshold: read(&shape[10..12])?,
        spacing: read(&shape[12..])?,
    };
    let bytes = column.chunks(2).map(|row| read(row).map(|byte| byte as u8));
    Some((header, bytes.collect::<Option<Vec<u8>>>()?))
}

fn hexadecimal(digits: &[u8], fault: Fault) -> Option<u32> {
    let mut number = 0;
    for &digit in digits {
        let upper = fault == Fault::PrintUpperCase;
        let value = match digit {
            b'0'..=b'9' => digit - b'0',
            b'a'..=b'f' => digit - b'a' + 10,
            b'A'..=b'F' if upper => digit - b'A' + 10,
            _ => return None,
        };
        number = number << 4 | u32::from(value);
    }
    Some(number)
}
