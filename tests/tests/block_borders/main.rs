//! Each clause of numbers 1 to 6 and 13 of documents 01 and 02, on both sides of its
//! border.

mod charges;
mod kinds;
mod next;
mod order;
mod rows;
mod sizes;
mod states;
mod unused;

use rbatl_tests::jobs::smallest;
use rbatl_tests::layout::*;
use rbatl_tests::{block, ffi};

/// What is set in a block: a place and its value.
type Change = (usize, u8);

/// The named cases of one border.
#[derive(Default)]
struct Cases {
    tried: usize,
    wrong: Vec<String>,
}

impl Cases {
    /// The block with the changes must give the number, in both checks.
    fn expect(&mut self, name: &str, block: &[u8], changes: &[Change], number: u8) {
        let mut block = block.to_vec();
        for &(place, value) in changes {
            block[place] = value;
        }
        self.tried += 1;
        let answer = ffi::check(&block);
        if answer != -i32::from(number) {
            self.wrong
                .push(format!("{name}: rbatl_check gives {answer}, not -{number}"));
        }
        let answer = block::check(&block);
        if answer != number {
            self.wrong.push(format!(
                "{name}: the test's own check gives {answer}, not {number}"
            ));
        }
    }

    /// One place: each value with its number.
    fn values(&mut self, name: &str, block: &[u8], place: usize, numbers: &[(u8, u8)]) {
        for &(value, number) in numbers {
            self.expect(
                &format!("{name} = {value}"),
                block,
                &[(place, value)],
                number,
            );
        }
    }

    fn report(self) {
        assert!(self.tried > 0, "no case was tried");
        assert!(self.wrong.is_empty(), "\n{}", self.wrong.join("\n"));
    }
}

/// A job of full size: four actions everywhere, without costs.
fn full() -> Vec<u8> {
    let mut block = smallest(3, 2, 24, 8, 32);
    block[count(0, 0)..count(MAX_STATES, 0)].fill(MAX_ACTIONS as u8);
    block
}

/// Rows 0 to i - 1 are `prop,0`, and row i is of the kind, on row 0, with
/// coalition {0} and no budget.
fn job_with_row(kind: u8, i: usize) -> Vec<u8> {
    let mut block = smallest(2, 2, 2, 2, i + 1);
    block[row(i, KIND)] = kind;
    block[row(i, COALITION)] = u8::from(is_strategic(kind));
    block
}
