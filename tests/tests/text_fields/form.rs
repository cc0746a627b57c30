//! Words, separators, lines and the end.

use super::*;

/// Spellings of a word that are not it.
fn other_words(word: &str) -> Vec<String> {
    vec![
        String::new(),
        word.to_uppercase(),
        word[..1].to_uppercase() + &word[1..],
        word[1..].to_string(),
        word[..word.len() - 1].to_string(),
        format!("{word}s"),
        format!("{word} "),
        format!(" {word}"),
        format!("\t{word}"),
        format!("\r{word}"),
        format!("\n{word}"),
        format!("{word},"),
        format!(",{word}"),
        format!("\"{word}\""),
        format!("\u{feff}{word}"),
        format!("{word}\0"),
        "foo".to_string(),
        "0".to_string(),
        "6".to_string(),
    ]
}

/// The lines of a text, each as what stands before it, it, and what follows.
fn split_lines(text: &str) -> Vec<(String, String, String)> {
    let lines: Vec<&str> = text.split_inclusive('\n').collect();
    let parts = (0..lines.len()).map(|i| {
        let (before, after) = (lines[..i].concat(), lines[i + 1..].concat());
        (before, lines[i].to_string(), after)
    });
    parts.collect()
}

#[test]
fn every_word_as_it_is() {
    for text in texts() {
        for (before, line, after) in split_lines(&text) {
            let (word, rest) = line.split_once(',').expect("a word and a comma");
            for other in other_words(word) {
                let name = format!("{line:?} with {other:?}");
                expect(&format!("{before}{other},{rest}{after}"), 7, &name);
            }
            let name = format!("{line:?} without its comma");
            let glued = format!("{before}{word}{rest}{after}");
            // Catch without its first comma opens with edition 2's word, and R 3.
            let number = if glued.starts_with("job2,1,3") { 2 } else { 7 };
            expect(&glued, number, &name);
            expect(&format!("{before}{word};{rest}{after}"), 7, &name);
            expect(&format!("{before}{word}\n{after}"), 7, &name);
            expect(&format!("{before}{word}"), 7, &name);
        }
    }
}

/// A line of another sort does not stand for a first line, a `state`, `acts` or
/// `go` line, nor one of these for a row.
#[test]
fn every_word_in_its_place() {
    let rows = ["prop", "not", "or", "next", "always", "until"];
    let words = ["job", "job2", "state", "acts", "go"]
        .into_iter()
        .chain(rows);
    for (before, line, after) in [WIDE, WIDE_2].into_iter().flat_map(split_lines) {
        let (word, rest) = line.split_once(',').expect("a word and a comma");
        for other in words.clone().filter(|other| *other != word) {
            if !rows.contains(&word) || !rows.contains(&other) {
                let name = format!("{line:?} with {other}");
                expect(&format!("{before}{other},{rest}{after}"), 7, &name);
            }
        }
    }
}

/// Each comma and line end replaced; two commas make an empty field, which only
/// a bound may be.
#[test]
fn every_separator_as_it_is() {
    for text in texts() {
        for (place, end) in text.match_indices([',', '\n']) {
            let (before, after) = (&text[..place], &text[place + 1..]);
            for other in [
                ";", " ", ".", "\t", "\r", "\0", ", ", " ,", "\r\n", "\n\r", " \n",
            ] {
                let name = format!("{other:?} for {end:?} at {place}");
                expect(&format!("{before}{other}{after}"), 7, &name);
            }
            let swapped = if end == "," { "\n" } else { "," };
            let name = format!("{swapped:?} for {end:?} at {place}");
            expect(&format!("{before}{swapped}{after}"), 7, &name);
        }
    }
}

#[test]
fn no_empty_line() {
    for text in texts() {
        for (before, line, after) in split_lines(&text) {
            let name = format!("an empty line at {line:?}");
            expect(&format!("{before}\n{line}{after}"), 7, &name);
            expect(&format!("{before}{line}\n{after}"), 7, &name);
        }
    }
}

#[test]
fn no_carriage_return() {
    expect(&catch().replace('\n', "\r\n"), 7, "line ends of two bytes");
    expect(&catch().replace('\n', "\r"), 7, "carriage returns");
}

/// Without a row, a later one may name itself; the structure and the last row
/// are missed for their form.
#[test]
fn every_line_is_there() {
    for text in texts() {
        let lines = split_lines(&text);
        for (before, line, after) in &lines {
            let structure = ["job", "state", "acts", "go"]; // job2 too
            if structure.iter().any(|word| line.starts_with(word)) || after.is_empty() {
                expect(&format!("{before}{after}"), 7, &format!("no {line:?}"));
            }
        }
    }
    let text = catch().replace("\nprop,0\n", "\n");
    expect(&text, 5, "no prop: not,0 is row 0");
    let text = catch().replace("\nor,0,1\n", "\n");
    expect(&text, 5, "no or: until,1,5,2,0 is row 2");
    let text = catch().replace("\nuntil,1,5,2,0\n", "\n");
    expect(&text, 7, "an until less: no row 5");
}

#[test]
fn nothing_after_the_last_row() {
    for text in texts() {
        expect(&text, 0, "the text");
        expect(&text[..text.len() - 1], 7, "no last line end");
        for more in [
            "\n", "\0", " ", ",", "0", "\r", "\r\n", "prop,0\n", "prop", "x", "\u{1a}",
        ] {
            let name = format!("{more:?} after the text");
            expect(&format!("{text}{more}"), 7, &name);
        }
        expect(&text.repeat(2), 7, "the text twice");
        let zeros = "\0".repeat(text::TEXT_BYTES - text.len());
        expect(&format!("{text}{zeros}"), 7, "the writer's whole buffer");
    }
}

#[test]
fn nothing_before_the_first_line() {
    expect("", 7, "no byte");
    for first in ["\n", " ", "\0", "\u{feff}", "x", ",", "job", "job,"] {
        let name = format!("{first:?} before the text");
        expect(&format!("{first}{}", catch()), 7, &name);
    }
}
