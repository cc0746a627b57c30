//! The listing program and the script `list`, by running them: `tools/prove
//! program listing` builds the program first.

mod random;
mod script;
mod streams;

use rbatl_tests::jobs;
use rbatl_tests::process::{built, run, Ran};
use std::path::PathBuf;

fn program() -> PathBuf {
    built("target/bin/listing")
}

/// What the program prints for a text; there is nothing on standard error.
fn printed(text: &[u8]) -> String {
    let Ran { status, out, err } = run(&program(), &[], text);
    assert_eq!((status, err.as_str()), (0, ""), "{out}");
    out
}

/// The rows of Catch, as document 01 prints them.
#[test]
fn catch_has_its_listing() {
    let expected = "list,6\nset,0,1,4\nset,1,2,3\nset,2,3,7\nset,3,2,6\nplan,3,1,1,1\n\
                    plan,3,2,0,0\nset,4,3,7\nplan,4,0,2,1\nplan,4,1,1,1\nplan,4,2,0,0\n\
                    set,5,2,6\nplan,5,1,1,1\nplan,5,2,0,0\n";
    assert_eq!(printed(&jobs::text("catch.job")), expected);
}
