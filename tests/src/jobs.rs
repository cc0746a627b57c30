//! The files of jobs/, and other jobs that tests start from.

use crate::layout::*;
use crate::text;
use std::path::{Path, PathBuf};

/// The listing of Catch (document 01).
pub const CATCH_LISTING: &str = "\
list,6
set,0,1,4
set,1,2,3
set,2,3,7
set,3,2,6
plan,3,1,1,1
plan,3,2,0,0
set,4,3,7
plan,4,0,2,1
plan,4,1,1,1
plan,4,2,0,0
set,5,2,6
plan,5,1,1,1
plan,5,2,0,0
";

pub fn folder() -> PathBuf {
    Path::new(env!("CARGO_MANIFEST_DIR")).join("../jobs")
}

/// The names of the job files, in order.
pub fn names() -> Vec<String> {
    let files = std::fs::read_dir(folder()).expect("jobs/ can be listed");
    let names = files.map(|file| file.expect("an entry of jobs/").file_name());
    let names = names.map(|name| name.into_string().expect("a plain name"));
    let mut names: Vec<String> = names.filter(|name| name.ends_with(".job")).collect();
    names.sort();
    names
}

pub fn text(name: &str) -> Vec<u8> {
    let path = folder().join(name);
    std::fs::read(&path).unwrap_or_else(|error| panic!("{}: {error}", path.display()))
}

/// The block of a job file.
pub fn load(name: &str) -> Vec<u8> {
    text::read(&text(name)).unwrap_or_else(|number| panic!("{name} is refused: {number}"))
}

pub fn catch() -> Vec<u8> {
    load("catch.job")
}

/// The smallest job of these sizes: everyone idles, every next state is 0, and
/// every row is `prop,0`.
pub fn smallest(
    agents: usize,
    resources: usize,
    states: usize,
    propositions: usize,
    rows: usize,
) -> Vec<u8> {
    let mut block = vec![0; BLOCK_BYTES];
    let sizes = Sizes {
        agents,
        resources,
        states,
        propositions,
        rows,
    };
    sizes.store(&mut block);
    for state in 0..states {
        for agent in 0..agents {
            block[count(state, agent)] = 1;
        }
    }
    block
}

/// The job without its second resource, where it has two.
pub fn with_one_resource(mut job: Vec<u8>) -> Vec<u8> {
    let sizes = Sizes::of(&job);
    job[RESOURCES] = 1;
    job[resource_kind(1)] = 0;
    for state in 0..sizes.states {
        for agent in 0..sizes.agents {
            (0..MAX_ACTIONS).for_each(|action| job[cost(state, agent, action, 1)] = 0);
        }
    }
    (0..sizes.rows).for_each(|i| job[row(i, BOUND + 1)] = 0);
    job
}

/// Catch with the seventh row of document 01, `always,2,0,1`.
pub fn catch_with_always() -> Vec<u8> {
    let mut block = load("catch.job");
    block[ROWS] = 7;
    for (field, value) in [(KIND, ALWAYS), (LEFT, 1), (COALITION, 2), (BOUND, 0)] {
        block[row(6, field)] = value;
    }
    block
}
