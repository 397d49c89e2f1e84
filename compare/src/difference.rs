//! The first line in which the two sides differ.

use crate::second::Line;
use std::fmt;

/// How much of a long line is worth printing.
const SHOWN: usize = 160;
const BEFORE_THE_DIFFERENCE: usize = 60;

#[derive(Debug)]
pub struct Difference {
    index: usize,
    letter: char,
    /// The number of the line's first character that differs.
    place: usize,
    second: String,
    other: String,
}

pub fn first_difference(second: &[Line], other: &[u8]) -> Option<Difference> {
    let mut others = other.split_inclusive(|byte| *byte == b'\n');
    for line in second {
        let other = others.next();
        let same = other.and_then(|other| other.strip_suffix(b"\n"));
        if same != Some(line.text.as_bytes()) {
            return Some(Difference::new(line, Some(&line.text), other));
        }
    }
    let extra = others.next()?;
    match second.last() {
        Some(last) => Some(Difference::new(last, None, Some(extra))),
        None => Some(Difference {
            index: 0,
            letter: '?',
            place: 0,
            second: cut(None, 0),
            other: cut(Some(extra), 0),
        }),
    }
}

impl Difference {
    fn new(line: &Line, second: Option<&str>, other: Option<&[u8]>) -> Difference {
        let second = second.map(str::as_bytes);
        let pairs = second
            .unwrap_or_default()
            .iter()
            .zip(other.unwrap_or_default());
        let place = pairs.take_while(|(ours, theirs)| ours == theirs).count();
        Difference {
            index: line.index,
            letter: char::from(line.letter),
            place,
            second: cut(second, place),
            other: cut(other, place),
        }
    }
}

/// The part of a line about the difference; a line without its line end says so.
fn cut(line: Option<&[u8]>, place: usize) -> String {
    let Some(line) = line else {
        return "(no line)".to_string();
    };
    let start = place.saturating_sub(BEFORE_THE_DIFFERENCE);
    let part = line.iter().skip(start).take(SHOWN).copied();
    let part: Vec<u8> = part.take_while(|byte| *byte != b'\n').collect();
    let head = if start > 0 { "..." } else { "" };
    format!("{head}{}", String::from_utf8_lossy(&part).escape_debug())
}

impl fmt::Display for Difference {
    fn fmt(&self, formatter: &mut fmt::Formatter) -> fmt::Result {
        let Difference {
            index,
            letter,
            place,
            second,
            other,
        } = self;
        let letter = letter.escape_debug();
        writeln!(
            formatter,
            "command {index}, letter {letter}, from character {place} of its line"
        )?;
        writeln!(formatter, "second router: {second}")?;
        write!(formatter, "other side:    {other}")
    }
}

#[cfg(test)]
mod tests {
    use super::*;

    fn lines(texts: &[&str]) -> Vec<Line> {
        let line = |(index, text): (usize, &&str)| Line {
            index: 10 + index,
            letter: b'F',
            text: text.to_string(),
            given: None,
        };
        texts.iter().enumerate().map(line).collect()
    }

    #[test]
    fn the_same_lines_do_not_differ() {
        assert!(first_difference(&lines(&["a", "b"]), b"a\nb\n").is_none());
        assert!(first_difference(&[], b"").is_none());
    }

    #[test]
    fn each_way_to_differ_is_found_at_its_command() {
        for (other, index, second_says, other_says) in [
            (&b"a\nc\n"[..], 11, "b", "c"),
            (b"a\n", 11, "b", "(no line)"),
            (b"a\nb", 11, "b", "b"),
            (b"a\nb\nc\n", 11, "(no line)", "c"),
            (b"a\r\nb\n", 10, "a", "a\\r"),
            (b"", 10, "a", "(no line)"),
            (b"\n\n", 10, "a", ""),
        ] {
            let difference = first_difference(&lines(&["a", "b"]), other).unwrap();
            assert_eq!(difference.index, index, "{other:?}");
            assert_eq!(difference.second, second_says, "{other:?}");
            assert_eq!(difference.other, other_says, "{other:?}");
        }
        assert!(first_difference(&[], b"x\n").is_some());
    }

    #[test]
    fn long_lines_are_cut_about_the_difference() {
        let long = "0".repeat(5_000);
        let mut other = format!("{long}\n").into_bytes();
        other[3_000] = b'1';
        let difference = first_difference(&lines(&[&long]), &other).unwrap();
        assert_eq!(difference.place, 3_000);
        assert!(difference.other.len() <= SHOWN + 3);
        assert!(difference.other.contains('1'));
    }
}
