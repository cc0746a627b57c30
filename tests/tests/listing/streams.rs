//! Input and output that fail, and input that never ends. Of a stream that fails
//! the program says on standard error which one and why, and ends with status 1.

use super::program;
use rbatl_tests::process::{shell, Ran};

fn redirected(redirections: &str) -> Ran {
    shell(&program(), &format!("\"$0\" {redirections}"))
}

fn failed(ran: &Ran, stream: &str) -> bool {
    let start = format!("{stream}: ");
    let said = ran.err.starts_with(&start) && ran.err.lines().count() == 1;
    ran.status == 1 && ran.out.is_empty() && said
}

#[test]
fn output_that_fails() {
    for target in ["> /dev/full", ">&-"] {
        let ran = redirected(&format!("< \"$1/catch.job\" {target}"));
        assert!(failed(&ran, "standard output"), "{target}: {ran:?}");
    }
}

/// A refusal is output too.
#[test]
fn a_refusal_that_cannot_be_printed() {
    let ran = redirected("< /dev/null > /dev/full");
    assert!(failed(&ran, "standard output"), "{ran:?}");
}

#[test]
fn input_that_fails() {
    for source in ["< /", "<&-"] {
        let ran = redirected(source);
        assert!(failed(&ran, "standard input"), "{source}: {ran:?}");
    }
}

#[test]
fn endless_input() {
    for script in ["\"$0\" < /dev/zero", "yes | \"$0\""] {
        let ran = shell(&program(), script);
        assert_eq!((ran.out.as_str(), ran.err.as_str()), ("refused,1\n", ""));
    }
}

/// No more is taken than shows that the text is too long.
#[test]
fn the_rest_of_a_long_text_is_left() {
    let ran = shell(&program(), "yes | head -c 40000 | { \"$0\"; wc -c; }");
    assert_eq!(ran.out, format!("refused,1\n{}\n", 40_000 - 32_769));
}

/// A text that comes in parts is one text.
#[test]
fn slow_input() {
    let parts = "{ head -n 5 \"$1/catch.job\"; sleep 0.1; tail -n +6 \"$1/catch.job\"; }";
    let ran = shell(&program(), &format!("{parts} | \"$0\""));
    let whole = redirected("< \"$1/catch.job\"");
    assert_eq!(ran, whole);
    assert!(whole.out.starts_with("list,6\n"));
}
