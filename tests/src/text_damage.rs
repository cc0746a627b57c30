//! Texts that differ from the text of a job, of either edition, in some bytes,
//! fields or lines.

use crate::random::Rng;
use crate::text::{Edition, EDITIONS, KIND_WORDS};

/// The bytes of texts, and some that stand next to them or look like them.
const BYTES: &[u8] = b"0123456789,\ninfjobstaecgprlwuydmx -+.;/:\r\t\0IN\x7f\x80\xff";

/// Numbers at both sides of every border in document 01, well formed.
const NUMBERS: [&str; 26] = [
    "0", "1", "2", "3", "4", "5", "6", "7", "8", "9", "10", "14", "15", "16", "23", "24", "25",
    "31", "32", "33", "127", "128", "199", "200", "254", "255",
];

/// Spellings of no number, and of numbers above 255.
#[rustfmt::skip]
pub const NO_NUMBERS: [&str; 38] = [
    "", "00", "01", "007", "015", "000", "256", "257", "260", "265", "299", "300", "999", "1000",
    "65536", "4294967296", "18446744073709551616", "-1", "-0", "+1", "+0", " 0", "0 ", " ", "\t1",
    "1\r", "\r", "1\0", "/", ":", "x", "1x", "0x1", "1.0", "1e0", "Inf", "in", "infi",
];

/// Charges at both sides of every border, well formed or not.
#[rustfmt::skip]
pub const MINUSES: [&str; 26] = [
    "-1", "-2", "-9", "-10", "-14", "-15", "-16", "-17", "-99", "-100", "-127", "-128", "-240",
    "-241", "-254", "-255", "-256", "-300", "-0", "-00", "-", "--1", "-01", "- 1", "-1-", "1-1",
];

const WORDS: [&str; 10] = [
    "inf", "until", "or", "not", "go", "acts", "sum", "max", "job", "job2",
];

/// Words that are no kind of a resource.
#[rustfmt::skip]
pub const NO_KINDS: [&str; 20] = [
    "", " ", "Sum", "SUM", "Max", "maX", "sum ", " max", "su", "ax", "summ", "max0", "min", "add",
    "inf", "0", "1", "sum\r", "max\0", "sum;max",
];

/// A sort of places, by the byte there.
type Places = (&'static str, fn(u8) -> bool);

const PLACES: [Places; 6] = [
    ("byte", |_| true),
    ("digit", |byte| byte.is_ascii_digit()),
    ("comma", |byte| byte == b','),
    ("line end", |byte| byte == b'\n'),
    ("letter", |byte| byte.is_ascii_alphabetic()),
    ("minus", |byte| byte == b'-'),
];

/// Changes the text at a place.
type Edit = (&'static str, fn(&mut Rng, &mut Vec<u8>, usize));

const EDITS: [Edit; 5] = [
    ("changed", |rng, text, place| text[place] = any_byte(rng)),
    ("dropped", |_, text, place| {
        text.remove(place);
    }),
    ("doubled", |_, text, place| text.insert(place, text[place])),
    ("inserted before", |rng, text, place| {
        text.insert(place, any_byte(rng))
    }),
    ("inserted after", |rng, text, place| {
        text.insert(place + 1, any_byte(rng))
    }),
];

/// Damages the text of a job, or leaves it whole, and says how.
pub fn damage(rng: &mut Rng, text: &mut Vec<u8>) -> String {
    match rng.below(24) {
        0 => "whole".to_string(),
        1 => cut(rng, text),
        2..=5 => edit(rng, text),
        6 => {
            let edits: Vec<String> = (0..rng.within(2..=4)).map(|_| edit(rng, text)).collect();
            edits.join(", ")
        }
        7..=15 => respell(rng, text),
        16 => exchange(rng, text),
        17 => {
            let fields: Vec<String> = (0..2).map(|_| respell(rng, text)).collect();
            fields.join(", ")
        }
        18..=20 => respell_cost(rng, text),
        _ => disorder(rng, text),
    }
}

/// The fields of a job's text, each with whether it is a bound: those between the
/// team of a strategic row and its operands.
fn fields(text: &[u8]) -> impl Iterator<Item = (&[u8], bool)> {
    lines(text).into_iter().flat_map(|line| {
        let fields: Vec<&[u8]> = line.split_inclusive(|&byte| byte == b',').collect();
        let bounds = match fields[0] {
            b"next," | b"always," => 2..fields.len() - 1,
            b"until," => 2..fields.len() - 2,
            _ => 0..0,
        };
        let fields = fields.into_iter().enumerate();
        fields.map(move |(place, field)| (field, bounds.contains(&place)))
    })
}

/// Leaves some of the bounds 0 empty, or all of them, and says how many.
pub fn empty_bounds(rng: &mut Rng, text: &[u8]) -> (Vec<u8>, usize) {
    let all = rng.one_in(4);
    let (mut emptied, mut count) = (Vec::new(), 0);
    for (field, bound) in fields(text) {
        let empty = bound && field == b"0," && (all || rng.one_in(2));
        emptied.extend(&field[usize::from(empty)..]);
        count += usize::from(empty);
    }
    (emptied, count)
}

/// The text with this spelling in each empty field.
pub fn filled_bounds(text: &[u8], spelling: &[u8]) -> Vec<u8> {
    let mut filled = Vec::new();
    for field in text.split_inclusive(|&byte| byte == b',' || byte == b'\n') {
        if field == b"," {
            filled.extend(spelling);
        }
        filled.extend(field);
    }
    filled
}

pub fn lines(text: &[u8]) -> Vec<&[u8]> {
    text.split_inclusive(|&byte| byte == b'\n').collect()
}

fn cut(rng: &mut Rng, text: &mut Vec<u8>) -> String {
    text.truncate(rng.below(text.len() + 1));
    format!("cut at {}", text.len())
}

fn any_byte(rng: &mut Rng) -> u8 {
    match rng.below(4) {
        0 => rng.byte(),
        1 => b'0' + rng.below(10) as u8,
        _ => rng.pick(BYTES),
    }
}

/// Changes the text at one place of some sort.
fn edit(rng: &mut Rng, text: &mut Vec<u8>) -> String {
    let (sort, keeps) = rng.pick(&PLACES);
    let (name, edit) = rng.pick(&EDITS);
    let places: Vec<usize> = (0..text.len()).filter(|&i| keeps(text[i])).collect();
    if places.is_empty() {
        return format!("no {sort}");
    }
    let place = rng.pick(&places);
    edit(rng, text, place);
    format!("{sort} {place} {name}")
}

/// Gives a text the first word of the other edition, and perhaps the rest of the
/// line; the other lines stay.
fn exchange(rng: &mut Rng, text: &mut Vec<u8>) -> String {
    let Some(edition) = Edition::of(text) else {
        return "no edition".to_string();
    };
    let other = EDITIONS[usize::from(edition == Edition::One)].word();
    text.splice(..edition.word().len(), other.bytes());
    if !rng.one_in(2) {
        return format!("opens with {other}");
    }
    let line = lines(text)[0];
    let fields: Vec<&[u8]> = line[..line.len() - 1].split(|&byte| byte == b',').collect();
    let end = fields[..fields.len().min(6)].join(&b',').len();
    let kinds = match edition {
        Edition::One => rng.within(0..=3),
        Edition::Two => 0,
    };
    let kinds: String = (0..kinds)
        .map(|_| format!(",{}", rng.pick(&KIND_WORDS)))
        .collect();
    text.splice(end..line.len() - 1, kinds.into_bytes());
    format!("the line of {other}")
}

/// The words before the rows, of either edition.
const STRUCTURE: [&[u8]; 4] = [b"job", b"state,", b"acts,", b"go,"];

/// Where a line starts and ends. Its sort is chosen first, else most would be
/// `go` lines; the last sort is that of the rows.
fn any_line(rng: &mut Rng, text: &[u8]) -> (usize, usize) {
    let chosen = rng.within(0..=STRUCTURE.len());
    let mut start = 0;
    let mut found = Vec::new();
    for line in lines(text) {
        let sort = STRUCTURE.iter().position(|word| line.starts_with(word));
        if sort.unwrap_or(STRUCTURE.len()) == chosen {
            found.push((start, start + line.len()));
        }
        start += line.len();
    }
    match found.is_empty() {
        true => (0, text.len()),
        false => rng.pick(&found),
    }
}

/// Where the fields of a line start and end.
fn fields_between(text: &[u8], start: usize, end: usize) -> Vec<(usize, usize)> {
    let mut fields = Vec::new();
    let mut place = start;
    for field in text[start..end].split(|&byte| byte == b',' || byte == b'\n') {
        fields.push((place, place + field.len()));
        place += field.len() + 1;
    }
    // What follows the line end is no field of the line.
    if fields.len() > 1 {
        fields.pop();
    }
    fields
}

/// Spells one field of a line in another way.
fn respell(rng: &mut Rng, text: &mut Vec<u8>) -> String {
    let (start, end) = any_line(rng, text);
    let fields = fields_between(text, start, end);
    // The last field is a value in every line.
    let field = match rng.one_in(2) {
        true => fields[fields.len() - 1],
        false => rng.pick(&fields),
    };
    put(rng, text, field, spelling)
}

/// Spells one cost as a charge, or nearly so; it may be that of idling.
fn respell_cost(rng: &mut Rng, text: &mut Vec<u8>) -> String {
    let mut start = 0;
    let mut costs = Vec::new();
    for line in lines(text) {
        if line.starts_with(b"acts,") {
            let fields = fields_between(text, start, start + line.len());
            costs.extend_from_slice(fields.get(4..).unwrap_or(&[]));
        }
        start += line.len();
    }
    match costs.is_empty() {
        true => "no cost".to_string(),
        false => {
            let field = rng.pick(&costs);
            put(rng, text, field, |rng, old| match rng.below(4) {
                0 => format!("-{old}"),
                1 => old.trim_start_matches('-').to_string(),
                2 => format!("-{}", rng.within(1..=15)),
                _ => rng.pick(&MINUSES).to_string(),
            })
        }
    }
}

/// Puts another spelling in the place of a field, and says how.
fn put(
    rng: &mut Rng,
    text: &mut Vec<u8>,
    (start, end): (usize, usize),
    spelling: impl Fn(&mut Rng, &str) -> String,
) -> String {
    let old = String::from_utf8_lossy(&text[start..end]).into_owned();
    let new = spelling(rng, &old);
    text.splice(start..end, new.bytes());
    format!("{old:?} at {start} spelled {new:?}")
}

fn spelling(rng: &mut Rng, old: &str) -> String {
    match (rng.below(13), old.parse::<i32>()) {
        (0..=5, Err(_)) if KIND_WORDS.contains(&old) => match rng.one_in(2) {
            true => rng.pick(&KIND_WORDS).to_string(),
            false => rng.pick(&NO_KINDS).to_string(),
        },
        (0, _) => rng.pick(&NO_NUMBERS).to_string(),
        (1, _) => rng.pick(&WORDS).to_string(),
        (2, _) => format!("0{old}"),
        (3, _) => format!("{old},{}", rng.pick(&NUMBERS)),
        (4, Ok(number)) => (number + 1).to_string(),
        (5, Ok(number)) => (number - 1).to_string(),
        (6, _) => rng.pick(&MINUSES).to_string(),
        _ => rng.pick(&NUMBERS).to_string(),
    }
}

/// Swaps, repeats, drops or moves lines, or puts one in the place of another.
fn disorder(rng: &mut Rng, text: &mut Vec<u8>) -> String {
    let mut lines = lines(text);
    if lines.is_empty() {
        return "no line".to_string();
    }
    let (i, j) = (rng.below(lines.len()), rng.below(lines.len()));
    let near = (i + 1) % lines.len();
    let how = match rng.below(6) {
        0 => {
            lines.swap(i, j);
            format!("lines {i} and {j} swapped")
        }
        1 => {
            lines.swap(i, near);
            format!("lines {i} and {near} swapped")
        }
        2 => {
            lines.insert(i, lines[i]);
            format!("line {i} repeated")
        }
        3 => {
            lines.remove(i);
            format!("line {i} dropped")
        }
        4 => {
            lines.insert(j, lines[i]);
            format!("line {i} repeated at {j}")
        }
        _ => {
            lines[j] = lines[i];
            format!("line {i} in place of {j}")
        }
    };
    *text = lines.concat();
    how
}
