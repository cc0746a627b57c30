//! Several faults at once: the first field from the left answers, and in a
//! field the form before the value.

use super::*;

/// A field, another spelling of it and the number that this gets.
type Fault = (&'static str, &'static str, u8);

/// Faults of Catch in the order of their fields.
const FAULTS: [Fault; 24] = [
    ("[job],2,1,3,1,6", "jo", 7),
    ("job,[2],1,3,1,6", "4", 2),
    ("job,2,1,[3],1,6", "25", 2),
    ("job,2,1,3,[1],6", "01", 7),
    ("job,2,1,3,1,[6]", "0", 2),
    ("state,[0],0", "00", 7),
    ("state,0,[0]", "2", 3),
    ("acts,0,[0],2,0,2", "1", 7),
    ("acts,0,0,[2],0,2", "5", 3),
    ("acts,0,0,2,0,[2]", "16", 3),
    ("acts,0,1,2,[0],0", "1", 3),
    ("go,0,0,0,[0]", "3", 4),
    ("go,0,[1],0,1", "2", 7),
    ("go,0,1,1,[0]", "255", 4),
    ("state,1,[0]", "256", 7),
    ("acts,1,1,[1],0", "0", 3),
    ("go,2,0,0,[2]", "24", 4),
    ("prop,[0]", "1", 5),
    ("[not],0", "nor", 7),
    ("or,[0],1", "2", 5),
    ("until,[1],5,2,0", "0", 5),
    ("until,3,[5],2,0", "-1", 7),
    ("until,3,[4],2,0", "16", 5),
    ("until,3,4,2,[0]", "5", 5),
];

/// Faults of Catch in edition 2, where they are others.
const FAULTS_2: [Fault; 17] = [
    ("[job2],2,1,3,1,6,sum", "job1", 7),
    ("job2,[2],1,3,1,6,sum", "9", 2),
    ("job2,2,[1],3,1,6,sum", "3", 2),
    ("job2,2,1,3,1,[6],sum", "33", 2),
    ("job2,2,1,3,1,6,[sum]", "min", 7),
    ("state,0,[0]", "2", 3),
    ("acts,0,0,2,0,[2]", "16", 3),
    ("acts,0,1,2,[0],0", "-1", 3),
    ("acts,0,1,2,0,[0]", "-0", 7),
    ("go,[0],0,1,0,0", "1", 7),
    ("go,0,[0],1,0,0", "3", 4),
    ("go,0,0,[1],0,0", "01", 7),
    ("go,0,0,1,0,[0]", "255", 4),
    ("acts,1,0,2,0,[3]", "-16", 3),
    ("[go],1,1,2", "gos", 7),
    ("go,2,[2]", "3", 4),
    ("until,3,4,2,[0]", "5", 5),
];

/// Each edition of Catch with its faults.
fn editions() -> [(String, &'static [Fault]); 2] {
    [(catch(), &FAULTS), (CATCH_2.to_string(), &FAULTS_2)]
}

/// The text with these faults. From the last one on: a fault leaves the places
/// before it as they were.
fn faulty(whole: &str, faults: &[Fault]) -> String {
    let mut text = whole.to_string();
    for (marked, spelling, _) in faults.iter().rev() {
        let field = Field::of(whole, marked);
        let start = field.before.len();
        text.replace_range(start..start + field.now.len(), spelling);
    }
    text
}

#[test]
fn each_fault_alone() {
    for (whole, faults) in editions() {
        for &fault in faults {
            expect(&faulty(&whole, &[fault]), fault.2, fault.0);
        }
    }
}

#[test]
fn the_first_of_two_faults_answers() {
    for (whole, faults) in editions() {
        for (i, &first) in faults.iter().enumerate() {
            for &second in &faults[i + 1..] {
                let name = format!("{} and {}", first.0, second.0);
                expect(&faulty(&whole, &[first, second]), first.2, &name);
            }
        }
    }
}

/// A refused value answers before anything wrong behind the byte after it.
#[test]
fn value_before_what_follows() {
    for (whole, faults) in editions() {
        for (marked, spelling, number) in faults.iter().filter(|fault| fault.2 != 7) {
            let field = Field::of(&whole, marked);
            let (end, rest) = field.after.split_at(1);
            for rest in ["", "x", ",", "\n", "\0", &rest.replace(',', ";")] {
                let text = format!("{}{spelling}{end}{rest}", field.before);
                expect(&text, *number, &format!("{marked}, then {rest:?}"));
            }
            expect(&format!("{}{spelling}", field.before), 7, marked);
        }
    }
}

#[test]
fn form_before_value() {
    let cases = [
        (7, "job,2,1,3,1,6", "job,2,1,25"),
        (2, "job,2,1,3,1,6", "job,2,1,25,01,6"),
        (7, "state,2,1", "state,2,256"),
        (7, "state,2,1", "state,1,1"),
        (3, "state,2,1", "state,2,2"),
        (7, "state,2,1", "state,2,2,"),
        (3, "acts,1,0,2,0,3", "acts,1,0,5,0,x"),
        (7, "acts,1,0,2,0,3", "acts,1,0,5"),
        (7, "acts,1,0,2,0,3", "acts,1,0,2,0,16,"),
        (7, "go,0,0,1,0", "go,0,1,0,0"),
        (7, "go,2,0,0,2", "go,2,0,0,3,"),
        (5, "until,3,4,2,0", "until,4,x,2,0"),
        (5, "until,3,4,2,0", "until,3,255,2,0"),
        (7, "until,3,4,2,0", "until,3,255"),
        (7, "until,3,4,2,0", "until,3,256,2,0"),
        (7, "until,3,4,2,0", "until,3,4,2,"),
        (7, "until,3,4,2,0", "until,3,4,2,0\n"),
        (5, "until,3,4,2,0", "until,3,4,2,5\n"),
        (7, "until,3,4,2,0", "until,3,4,2,5,"),
    ];
    for (number, line, other) in cases {
        expect(&with_line(&catch(), line, other), number, other);
    }
}
