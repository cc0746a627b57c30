//! The script `list`: the listing of a file, and an exit status.

use rbatl_tests::process::{built, shell, Ran};

fn list(arguments: &str) -> Ran {
    shell(&built("list"), &format!("\"$0\" {arguments}"))
}

#[test]
fn a_job() {
    let ran = list("\"$1/catch.job\"");
    let last = ran.out.lines().last();
    assert_eq!((ran.status, last), (0, Some("plan,5,2,0,0")), "{ran:?}");
}

#[test]
fn a_refused_text() {
    let ran = list("\"$1/README.md\"");
    assert_eq!(
        (ran.status, ran.out.as_str()),
        (1, "refused,7\n"),
        "{ran:?}"
    );
}

#[test]
fn wrong_arguments() {
    for arguments in [
        "",
        "\"$1/catch.job\" \"$1/full.job\"",
        "nowhere.job",
        "\"$1\"",
    ] {
        let ran = list(arguments);
        assert_eq!((ran.status, ran.out.as_str()), (2, ""), "{arguments}");
        assert!(ran.err.starts_with("list: "), "{ran:?}");
    }
}

#[test]
fn output_that_fails() {
    let ran = list("\"$1/catch.job\" > /dev/full");
    assert_eq!(ran.status, 2, "{ran:?}");
    assert!(!ran.err.is_empty());
}
