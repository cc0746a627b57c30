//! Which answers came, and how often.

/// How often each answer came: 0, and refusals 1 to 13.
pub type Counts = [u64; 14];

/// Answer 0 and a refusal's number, as an index; a length counts as 0.
pub fn number(answer: i32) -> usize {
    usize::try_from(-answer).unwrap_or(0)
}

/// Each of these answers must have come at least so often.
pub fn assert_each_came(seen: &[u64], answers: &[usize], least: u64) {
    println!("answers from 0: {seen:?}");
    for &answer in answers {
        assert!(
            seen[answer] >= least,
            "answer {answer} came only {} times: {seen:?}",
            seen[answer]
        );
    }
}

/// None of these answers may have come.
pub fn assert_none_came(seen: &[u64], answers: &[usize]) {
    for &answer in answers {
        assert_eq!(seen[answer], 0, "answer {answer} came: {seen:?}");
    }
}
