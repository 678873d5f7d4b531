//! Random frames for the printing program.

use crate::dialogue::Difference;
use crate::fault::Fault;
use crate::header::Header;
use crate::printing::print;
use crate::process::Program;
use crate::rng::Rng;
use crate::rows::GROUP;
use crate::shapes::{column, issued, odd_shape, shape, small_shape};
use crate::tally::Tally;

/// Frames that every run tries first.
const FIRST: [&str; 12] = [
    "0000003e020100010001ff00",
    "0000003e020100010001ff00\n",
    "",
    "\n",
    "0000003e02010001",
    "0000003e0201000",
    "0000003E020100010001ff00\n",
    "0000003e020100010001ff00\n\n",
    "0001f001020100010001ff00",
    "0001f000400100010001ff00",
    "0000003e0201000100010200",
    "00000003020100010001ff00",
];

/// Gives frame `number` of a seed to the program and compares what it prints.
pub fn try_frame(program: &Program, seed: u64, number: usize) -> Result<Tally, Difference> {
    let mut rng = Rng::new(seed ^ 0x5eed_f4a3, number as u64);
    let input = match FIRST.get(number) {
        Some(input) => input.as_bytes().to_vec(),
        None => any_frame(&mut rng),
    };
    let expected = print(&input, Fault::None);
    let got = program.run(&input);
    let got = got.unwrap_or_else(|why| format!("({why})"));
    if got != expected {
        return Err(Difference {
            line_number: 1,
            sent: String::from_utf8_lossy(&input).escape_debug().to_string(),
            expected,
            got,
        });
    }
    Ok(tally_of(&expected))
}

fn tally_of(printed: &str) -> Tally {
    let mut tally = Tally::default();
    tally.frames = 1;
    let refusal = printed.strip_prefix("ff");
    let number = refusal.map_or(Ok(0), |digits| usize::from_str_radix(digits.trim(), 16));
    tally.count("print", number.expect("a number of two digits"));
    tally
}

fn any_frame(rng: &mut Rng) -> Vec<u8> {
    let mut frame = match rng.below(10) {
        0..=3 => small_frame(rng),
        4 | 5 => edge_of_words(rng),
        6 => edge_of_fences(rng),
        7 => long_frame(rng),
        _ => refused_frame(rng),
    };
    if rng.chance(60) {
        frame.push(b'\n');
    }
    if rng.chance(15) {
        malform(rng, &mut frame);
    }
    frame
}

/// The digits of a frame; numbers too big for their digits are cut.
fn frame_of(shape: Header, column: &[u8]) -> Vec<u8> {
    let mut text = format!(
        "{:08x}{:02x}{:02x}{:04x}",
        shape.rows,
        shape.values & 255,
        shape.threshold & 255,
        shape.spacing & 0xffff
    );
    for byte in column {
        text.push_str(&format!("{byte:02x}"));
    }
    text.into_bytes()
}

fn small_frame(rng: &mut Rng) -> Vec<u8> {
    let shape = small_shape(rng);
    let count = issued(rng, shape.rows as usize);
    let column = column(rng, count, shape.values as usize);
    frame_of(shape, &column)
}

/// A shape that needs 8,192 words or just fewer, or a group more.
fn edge_of_words(rng: &mut Rng) -> Vec<u8> {
    let values = rng.pick(&[1, 2, 3, 4, 8, 16, 32, 64]);
    let threshold = rng.pick(&[1, 2, 5, 20]).min(8_192 / values / 4);
    let groups = 8_192 / values - 3 - 2 * threshold;
    let groups = (groups + rng.below(2)).min(4_096);
    let rows = groups * GROUP - rng.below(GROUP);
    let spacing = rng.pick(&[16, 64, 256]);
    let count = rng.below(rows.min(4_000) + 1);
    let column = column(rng, count, values);
    frame_of(shape(rows, values, threshold, spacing), &column)
}

/// A shape that needs 1,024 fences or one a value more.
fn edge_of_fences(rng: &mut Rng) -> Vec<u8> {
    let values = rng.pick(&[1, 2, 4, 8]);
    let spacing = rng.pick(&[1, 2, 3, 4]);
    let fences = 1_024 / values;
    let groups = (fences * spacing + rng.below(2)).min(4_096);
    let rows = groups * GROUP - rng.below(GROUP);
    let count = rng.below(rows.min(4_000) + 1);
    let column = column(rng, count, values);
    frame_of(shape(rows, values, 1, spacing), &column)
}

/// 4,000 rows, or one more or fewer.
fn long_frame(rng: &mut Rng) -> Vec<u8> {
    let count = rng.between(3_999, 4_001);
    let rows = rng.pick(&[3_999, 4_000, 4_001, 10_000, 126_976]);
    let values = rng.pick(&[1, 2, 3]);
    let column = column(rng, count, values);
    frame_of(shape(rows, values, 1, 16), &column)
}

/// Reasons for a refusal by the load, one or some.
fn refused_frame(rng: &mut Rng) -> Vec<u8> {
    let shape = match rng.chance(60) {
        true => odd_shape(rng),
        false => small_shape(rng),
    };
    let values = shape.values.clamp(1, 64) as usize;
    let rows = shape.rows.min(400) as usize;
    let more = rng.pick(&[0, 0, 1, 2]);
    let mut column = column(rng, rows + more, values);
    if rng.chance(50) && !column.is_empty() {
        let place = rng.below(column.len());
        column[place] = rng.pick(&[values as u8, 64, 100, 254]);
    }
    frame_of(shape, &column)
}

/// Makes a frame malformed, nearly always.
fn malform(rng: &mut Rng, frame: &mut Vec<u8>) {
    let place = rng.below(frame.len());
    match rng.below(9) {
        0 => frame.truncate(rng.below(frame.len())),
        1 => frame.insert(place, b'0'),
        2 => frame[place] = rng.pick(b"ABCDEFgGxX -+/:`\0\r\n\t\xff"),
        3 => frame.insert(0, rng.pick(b" \n0")),
        4 => frame.extend_from_slice(b"\r\n"),
        5 => frame.extend_from_slice(b"\n\n"),
        6 => frame.extend_from_slice(b"\n00"),
        7 => frame.push(b' '),
        _ => drop(frame.remove(place)),
    }
}
