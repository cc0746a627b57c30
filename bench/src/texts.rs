//! A text of full size, read in each edition and written, beside Rust programs that
//! do the same: field by field into a block of their own, which is handed out when
//! all is read; and, once the block is checked, field by field into the buffer.

use crate::{timing, Buffers};
use rbatl_tests::block::check;
use rbatl_tests::jobs;
use rbatl_tests::layout::*;
use rbatl_tests::text::{write_as, Edition, EDITIONS, TEXT_BYTES};
use std::hint::black_box;

const ROW_WORDS: [&[u8]; 6] = [b"prop", b"not", b"or", b"next", b"always", b"until"];

/// What is left of a text.
struct Scan<'a>(&'a [u8]);

impl Scan<'_> {
    fn word(&mut self, word: &[u8]) -> Option<()> {
        self.0 = self.0.strip_prefix(word)?;
        Some(())
    }

    fn field(&mut self, word: &[u8], end: u8) -> Option<()> {
        let rest = self.0.strip_prefix(word)?;
        self.0 = rest.strip_prefix(&[end])?;
        Some(())
    }

    fn digit(&self, place: usize) -> Option<usize> {
        let digit = self.0.get(place)?.wrapping_sub(b'0');
        (digit < 10).then_some(digit.into())
    }

    /// A number up to the most, which is at most 255, and the byte after it.
    fn number(&mut self, most: usize, end: u8) -> Option<u8> {
        let first = self.digit(0)?;
        let (value, length) = match (self.digit(1), self.digit(2)) {
            (None, _) => (first, 1),
            (Some(_), _) if first == 0 => return None,
            (Some(second), None) => (10 * first + second, 2),
            (Some(second), Some(third)) => (100 * first + 10 * second + third, 3),
        };
        if value > most || self.0.get(length) != Some(&end) {
            return None;
        }
        self.0 = &self.0[length + 1..];
        Some(value as u8)
    }

    /// A cost, or in edition 2 a charge of a resource that is not of kind max.
    fn cost(&mut self, most: usize, charges: bool, end: u8) -> Option<u8> {
        match charges && self.0.first() == Some(&b'-') {
            true => {
                self.0 = &self.0[1..];
                let charge = self.number(most, end).filter(|&charge| charge > 0)?;
                Some(charge.wrapping_neg())
            }
            false => self.number(most, end),
        }
    }

    fn index(&mut self, due: usize) -> Option<()> {
        let found = self.number(255, b',')?;
        (usize::from(found) == due).then_some(())
    }

    fn bound(&mut self) -> Option<u8> {
        if self.word(b"inf,").is_some() {
            return Some(UNLIMITED);
        }
        match self.word(b",") {
            Some(()) => Some(0),
            None => self.number(MAX_BOUND.into(), b','),
        }
    }
}

fn end_of(last: bool) -> u8 {
    if last {
        b'\n'
    } else {
        b','
    }
}

/// None if the text is refused.
fn read(text: &[u8], lent: &mut [u8]) -> Option<()> {
    let (mut scan, mut block) = (Scan(text), [0; BLOCK_BYTES]);
    let edition = match scan.field(b"job", b',') {
        Some(()) => Edition::One,
        None => scan.field(b"job2", b',').map(|()| Edition::Two)?,
    };
    read_first_line(&mut scan, &mut block, edition)?;
    let sizes = Sizes::of(&block);
    for state in 0..sizes.states {
        read_state(&mut scan, &mut block, sizes, state, edition)?;
        read_nexts(&mut scan, &mut block, sizes, state, edition)?;
    }
    for i in 0..sizes.rows {
        read_row(&mut scan, &mut block, sizes, i)?;
    }
    if !scan.0.is_empty() {
        return None;
    }
    lent.copy_from_slice(&block);
    Some(())
}

fn read_first_line(scan: &mut Scan, block: &mut [u8], edition: Edition) -> Option<()> {
    let largest = [3, 2, 24, 8, 32];
    for (place, most) in largest.into_iter().enumerate() {
        let last = place == ROWS && edition == Edition::One;
        block[place] = scan.number(most, end_of(last)).filter(|&size| size > 0)?;
    }
    let resources = usize::from(block[RESOURCES]);
    for resource in 0..resources {
        if edition == Edition::Two {
            let end = end_of(resource + 1 == resources);
            let largest = scan.field(b"max", end).is_some();
            if !largest {
                scan.field(b"sum", end)?;
            }
            block[resource_kind(resource)] = u8::from(largest);
        }
    }
    Some(())
}

fn read_state(
    scan: &mut Scan,
    block: &mut [u8],
    sizes: Sizes,
    state: usize,
    edition: Edition,
) -> Option<()> {
    scan.field(b"state", b',')?;
    scan.index(state)?;
    block[mask(state)] = scan.number((1 << sizes.propositions) - 1, b'\n')?;
    for agent in 0..sizes.agents {
        scan.field(b"acts", b',')?;
        scan.index(state)?;
        scan.index(agent)?;
        let actions = scan.number(MAX_ACTIONS, b',').filter(|&count| count > 0)?;
        block[count(state, agent)] = actions;
        for action in 0..usize::from(actions) {
            let most = if action == 0 { 0 } else { MAX_COST.into() };
            for resource in 0..sizes.resources {
                let last = action + 1 == actions.into() && resource + 1 == sizes.resources;
                let charges = edition == Edition::Two && block[resource_kind(resource)] == SUM;
                let spent = scan.cost(most, charges, end_of(last))?;
                block[cost(state, agent, action, resource)] = spent;
            }
        }
    }
    Some(())
}

fn read_nexts(
    scan: &mut Scan,
    block: &mut [u8],
    sizes: Sizes,
    state: usize,
    edition: Edition,
) -> Option<()> {
    each_joint(counts(block, sizes, state), |joint, last| {
        if joint == 0 || edition == Edition::One {
            scan.field(b"go", b',')?;
            scan.index(state)?;
        }
        if edition == Edition::One {
            for action in &actions(joint)[..sizes.agents] {
                scan.index(*action)?;
            }
        }
        let end = end_of(last || edition == Edition::One);
        block[next(state, joint)] = scan.number(sizes.states - 1, end)?;
        Some(())
    })
}

/// Each agent's number of actions, 1 for one that does not exist.
fn counts(block: &[u8], sizes: Sizes, state: usize) -> [usize; MAX_AGENTS] {
    std::array::from_fn(|agent| match agent < sizes.agents {
        true => block[count(state, agent)].into(),
        false => 1,
    })
}

/// Each joint action in rising number, and whether it is the last.
fn each_joint(
    counts: [usize; MAX_AGENTS],
    mut each: impl FnMut(usize, bool) -> Option<()>,
) -> Option<()> {
    let [first, second, third] = counts;
    for c in 0..third {
        for b in 0..second {
            for a in 0..first {
                each(a + 4 * b + 16 * c, [a + 1, b + 1, c + 1] == counts)?;
            }
        }
    }
    Some(())
}

fn read_row(scan: &mut Scan, block: &mut [u8], sizes: Sizes, i: usize) -> Option<()> {
    let kind = ROW_WORDS
        .iter()
        .position(|word| scan.field(word, b',').is_some())? as u8;
    block[row(i, KIND)] = kind;
    if is_strategic(kind) {
        let team = scan.number((1 << sizes.agents) - 1, b',')?;
        block[row(i, COALITION)] = Some(team).filter(|&team| team > 0)?;
        for resource in 0..sizes.resources {
            block[row(i, BOUND + resource)] = scan.bound()?;
        }
    }
    let most = match kind {
        PROP => sizes.propositions - 1,
        _ => i.checked_sub(1)?,
    };
    block[row(i, LEFT)] = scan.number(most, end_of(!uses_right(kind)))?;
    if uses_right(kind) {
        block[row(i, RIGHT)] = scan.number(most, b'\n')?;
    }
    Some(())
}

/// What is written so far.
struct Out<'a> {
    bytes: &'a mut [u8],
    length: usize,
}

impl Out<'_> {
    fn word(&mut self, word: &[u8]) {
        self.bytes[self.length..][..word.len()].copy_from_slice(word);
        self.length += word.len();
    }

    fn cost(&mut self, byte: u8) {
        match byte > MAX_COST {
            true => {
                self.word(b",-");
                self.digits(byte.wrapping_neg());
            }
            false => self.number(byte),
        }
    }

    fn number(&mut self, number: u8) {
        self.word(b",");
        self.digits(number);
    }

    fn digits(&mut self, number: u8) {
        for (unit, digit) in [
            (100, number / 100),
            (10, number / 10 % 10),
            (1, number % 10),
        ] {
            if number >= unit || unit == 1 {
                self.word(&[b'0' + digit]);
            }
        }
    }
}

/// The length of the text of edition 2, zeros after it; none if the block is refused.
fn write(block: &[u8], text: &mut [u8]) -> Option<usize> {
    if check(block) != 0 {
        return None;
    }
    let sizes = Sizes::of(block);
    let mut out = Out {
        bytes: text,
        length: 0,
    };
    out.word(b"job2");
    block[AGENTS..=ROWS]
        .iter()
        .for_each(|&size| out.number(size));
    for resource in 0..sizes.resources {
        let largest = block[resource_kind(resource)] == MAX;
        out.word(if largest { b",max" } else { b",sum" });
    }
    out.word(b"\n");
    (0..sizes.states).for_each(|state| write_state(&mut out, block, sizes, state));
    (0..sizes.rows).for_each(|i| write_row(&mut out, block, sizes, i));
    out.bytes[out.length..].fill(0);
    Some(out.length)
}

fn write_state(out: &mut Out, block: &[u8], sizes: Sizes, state: usize) {
    out.word(b"state");
    out.number(state as u8);
    out.number(block[mask(state)]);
    for agent in 0..sizes.agents {
        let actions = block[count(state, agent)];
        out.word(b"\nacts");
        [state as u8, agent as u8, actions]
            .into_iter()
            .for_each(|field| out.number(field));
        for action in 0..actions.into() {
            for resource in 0..sizes.resources {
                out.cost(block[cost(state, agent, action, resource)]);
            }
        }
    }
    out.word(b"\ngo");
    out.number(state as u8);
    each_joint(counts(block, sizes, state), |joint, _| {
        out.number(block[next(state, joint)]);
        Some(())
    });
    out.word(b"\n");
}

fn write_row(out: &mut Out, block: &[u8], sizes: Sizes, i: usize) {
    let field = |field| block[row(i, field)];
    let kind = field(KIND);
    out.word(ROW_WORDS[usize::from(kind)]);
    if is_strategic(kind) {
        out.number(field(COALITION));
        for resource in 0..sizes.resources {
            match field(BOUND + resource) {
                UNLIMITED => out.word(b",inf"),
                bound => out.number(bound),
            }
        }
    }
    out.number(field(LEFT));
    if uses_right(kind) {
        out.number(field(RIGHT));
    }
    out.word(b"\n");
}

/// Times of jobs/full.job, as it is and with a charge for every other cost. All programs
/// must come to the same bytes.
pub fn print() {
    let job = jobs::load("full.job");
    println!("a text of full size, in milliseconds, and as a ratio to a Rust program that does the same:");
    for edition in EDITIONS {
        print_read(edition, &job, "");
    }
    print_write(&job, "");
    let mut charged = job;
    for (place, _) in cost_places(&charged.clone()).step_by(2) {
        charged[place] = charged[place].wrapping_neg();
    }
    print_read(Edition::Two, &charged, ", charges");
    print_write(&charged, ", charges");
}

fn print_read(edition: Edition, job: &[u8], what: &str) {
    let text = write_as(edition, job);
    let (mut buffers, mut block) = (Buffers::new(), vec![0; BLOCK_BYTES]);
    let [library, rust] = timing::best_of([&mut || buffers.read(black_box(&text)), &mut || {
        read(black_box(&text), &mut block).expect("a text that is read")
    }]);
    assert!(buffers.block == job && block == job, "{edition:?}");
    let name = format!("read {}, {} bytes{what}", edition.word(), text.len());
    println!("{name:30} {:9.3} {:8.2}", 1e3 * library, library / rust);
}

fn print_write(job: &[u8], what: &str) {
    let (mut buffers, mut text) = (Buffers::new(), vec![0; TEXT_BYTES]);
    let [library, rust] = timing::best_of([&mut || buffers.write(black_box(job)), &mut || {
        black_box(write(black_box(job), &mut text));
    }]);
    assert!(buffers.listing == text, "the written text");
    let name = format!("write job2{what}");
    println!("{name:30} {:9.3} {:8.2}", 1e3 * library, library / rust);
}
