//! A list of event numbers, as it is given to `plimdrong check`.

use crate::names::shown;
use crate::write::{all, called};
use crate::{complain, FAILED};
use std::ffi::{OsStr, OsString};
use std::io::{self, IsTerminal};
use std::os::unix::ffi::OsStrExt;

/// The numbers, a byte each as the checker takes them. One over 255 is 255 there, which is no event of any sheet either: the
/// answer is the same. What was typed is kept, for people.
#[derive(Debug, Default, PartialEq, Eq)]
pub struct List {
    pub bytes: Vec<u8>,
    over: Vec<(usize, String)>,
}

impl List {
    pub fn of_bytes(bytes: &[u8]) -> List {
        List { bytes: bytes.to_vec(), over: vec![] }
    }

    /// The number at an index as it was typed.
    pub fn typed(&self, index: usize) -> String {
        match self.over.iter().find(|(at, _)| *at == index) {
            Some((_, number)) => number.clone(),
            None => self.bytes.get(index).map_or(String::new(), |number| number.to_string()),
        }
    }

    fn push(&mut self, number: &str) {
        let digits = match number.trim_start_matches('0') {
            "" => "0",
            digits => digits,
        };
        self.bytes.push(digits.parse().unwrap_or(u8::MAX));
        if digits.parse::<u8>().is_err() {
            self.over.push((self.bytes.len() - 1, digits.to_string()));
        }
    }

    /// Numbers in digits, with spaces, commas or line ends between; `#` begins a comment. Else the line and the word at fault.
    fn parse(text: &str) -> Result<List, (usize, &str)> {
        let mut list = List::default();
        // a mark that some editors put in front
        let text = text.strip_prefix('\u{feff}').unwrap_or(text);
        for (line, text) in text.split('\n').enumerate() {
            let text = text.split('#').next().unwrap_or("");
            for word in text.split(|c: char| c == ',' || c.is_whitespace()).filter(|word| !word.is_empty()) {
                if !word.bytes().all(|b| b.is_ascii_digit()) {
                    return Err((line + 1, word));
                }
                list.push(word);
            }
        }
        Ok(list)
    }

    /// The list that arguments give: numbers, or one file that has them. What is wrong is said on standard error.
    pub fn given(words: &[&OsString]) -> Result<List, u8> {
        if let [file] = words {
            if !is_numbers(file) && !is_negative(file) {
                return List::of_file(file);
            }
        }
        if let Some(word) = words.iter().find(|word| !is_numbers(word)) {
            complain(format!(
                "'{}' is no event number: give numbers from 0 on, as: plimdrong check SHEET 0 1 2; or one file that has them",
                shown(word.as_bytes())
            ));
            return Err(FAILED);
        }
        let texts: Vec<&str> = words.iter().filter_map(|word| word.to_str()).collect();
        Ok(List::parse(&texts.join(" ")).unwrap_or_default())
    }

    fn of_file(file: &OsStr) -> Result<List, u8> {
        if file == "-" && io::stdin().is_terminal() {
            complain("reading a list from the terminal; to give it here: plimdrong check SHEET 0 1 2");
        }
        let name = called(file);
        let bytes = all(file, "this is no list of a sheet's events").map_err(|(_, why)| {
            complain(format!("{why}{}", if why.contains("no such file") { NUMBERS } else { "" }));
            FAILED
        })?;
        let text = std::str::from_utf8(&bytes).ok().filter(|text| !text.contains('\0'));
        let Some(text) = text else {
            complain(format!("{name}: this is no text: a list has event numbers in digits, as: 0 1 2"));
            return Err(FAILED);
        };
        List::parse(text).map_err(|(line, word)| {
            complain(format!(
                "{name}:{line}: '{}' is no event number: write numbers from 0 on in digits, with spaces, commas or line ends \
                 between; # begins a comment",
                shown(clipped(word).as_bytes())
            ));
            FAILED
        })
    }
}

const NUMBERS: &str = ", or give the numbers themselves, as: plimdrong check SHEET 0 1 2";

/// An argument that is numbers: digits, commas and spaces alone. All else is the name of a file.
fn is_numbers(word: &OsStr) -> bool {
    word.as_bytes().iter().all(|b| b.is_ascii_digit() || b.is_ascii_whitespace() || *b == b',')
}

fn is_negative(word: &OsStr) -> bool {
    word.as_bytes().strip_prefix(b"-").is_some_and(|rest| !rest.is_empty() && rest.iter().all(u8::is_ascii_digit))
}

/// The front of a word that may be long.
fn clipped(word: &str) -> String {
    match word.char_indices().nth(30) {
        Some((at, _)) => format!("{}..", &word[..at]),
        None => word.to_string(),
    }
}

#[cfg(test)]
mod tests {
    use super::*;

    fn list(bytes: &[u8], over: &[(usize, &str)]) -> Result<List, (usize, &'static str)> {
        Ok(List { bytes: bytes.to_vec(), over: over.iter().map(|&(at, number)| (at, number.to_string())).collect() })
    }

    #[test]
    fn lists_are_read() {
        for (text, want) in [
            ("", list(&[], &[])),
            ("0 1 2", list(&[0, 1, 2], &[])),
            ("0,1, 2\t,3", list(&[0, 1, 2, 3], &[])),
            ("# order\r\n3 # the read\r\n\r\n0,\r\n1\r\n", list(&[3, 0, 1], &[])),
            ("\u{feff}1,0", list(&[1, 0], &[])),
            ("007 000 255", list(&[7, 0, 255], &[])),
            ("1 256 0300 2", list(&[1, 255, 255, 2], &[(1, "256"), (2, "300")])),
            ("99999999999999999999", list(&[255], &[(0, "99999999999999999999")])),
            ("0 1\n2 x", Err((2, "x"))),
            ("0 -1", Err((1, "-1"))),
            ("+1", Err((1, "+1"))),
            ("[0,1]", Err((1, "[0"))),
            ("1.0", Err((1, "1.0"))),
            ("\u{663}", Err((1, "\u{663}"))),
        ] {
            assert_eq!(List::parse(text), want, "{text:?}");
        }
        let over = List::parse("1 256 2").unwrap();
        assert_eq!([0, 1, 2, 3].map(|i| over.typed(i)), ["1", "256", "2", ""]);
    }

    #[test]
    fn numbers_and_names() {
        for word in ["0", "0,1,2", "0 1 2", "", ",", "999"] {
            assert!(is_numbers(OsStr::new(word)), "{word:?}");
        }
        for word in ["./3", "x", "-", "-1", "0.", "0;1", "\u{663}"] {
            assert!(!is_numbers(OsStr::new(word)), "{word:?}");
        }
        assert!(is_negative(OsStr::new("-1")) && !is_negative(OsStr::new("-")) && !is_negative(OsStr::new("-1x")));
        for words in [&["0", "x"][..], &["-1"], &["0", "-"], &["0", "list"], &["-1", "0"]] {
            let words: Vec<OsString> = words.iter().map(OsString::from).collect();
            assert_eq!(List::given(&words.iter().collect::<Vec<_>>()), Err(FAILED), "{words:?}");
        }
        assert_eq!(clipped("short"), "short");
        assert_eq!(clipped(&"\u{e9}".repeat(40)), "\u{e9}".repeat(30) + "..");
    }
}
