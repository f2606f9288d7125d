//! How a run ends other than well, and with which exit status.

use pitch_dock::Refusal;
use std::fmt;
use std::io;
use std::path::Path;

/// Why a run ends other than well. Its text is one line.
#[derive(Debug, PartialEq, Eq)]
pub enum Trouble {
    /// Nothing was begun: what was typed, or the image, does not do.
    Refused(String),
    /// The drive, or standard output, failed.
    Failed(String),
    /// Ctrl-C, or a request to end.
    Interrupted(String),
}

/// What most functions here return.
pub type Outcome<T> = Result<T, Trouble>;

impl Trouble {
    /// The exit status that it ends with.
    pub fn status(&self) -> i32 {
        match self {
            Trouble::Refused(_) => 2,
            Trouble::Failed(_) => 1,
            Trouble::Interrupted(_) => 130,
        }
    }
}

impl fmt::Display for Trouble {
    fn fmt(&self, f: &mut fmt::Formatter<'_>) -> fmt::Result {
        match self {
            Trouble::Refused(why) => write!(f, "refused: {why}"),
            Trouble::Failed(why) => write!(f, "failed: {why}"),
            Trouble::Interrupted(why) => write!(f, "interrupted: {why}"),
        }
    }
}

/// A refusal with its text.
pub fn refused<T>(why: impl Into<String>) -> Outcome<T> {
    Err(Trouble::Refused(why.into()))
}

/// A failure with its text.
pub fn failed<T>(why: impl Into<String>) -> Outcome<T> {
    Err(Trouble::Failed(why.into()))
}

/// A path as it is printed: on one line, whatever bytes it has.
pub fn name_of(path: &Path) -> String {
    let mut name = String::new();
    for letter in path.to_string_lossy().chars() {
        match letter.is_control() {
            true => name.extend(letter.escape_default()),
            false => name.push(letter),
        }
    }
    name
}

/// What the system says of an error, in small letters and with its number where it has one: `no space left on device
/// (28)`.
pub fn reason(error: &io::Error) -> String {
    match error.raw_os_error() {
        Some(number) => reason_of(number),
        None => error.to_string(),
    }
}

/// The same of an error number.
pub fn reason_of(number: i32) -> String {
    let text = io::Error::from_raw_os_error(number).to_string();
    let text = text.split(" (os error").next().unwrap_or_default();
    let mut letters = text.chars();
    let first = letters.next().map(|c| c.to_ascii_lowercase());
    format!("{}{} ({number})", first.unwrap_or('?'), letters.as_str())
}

/// What the dock refuses a job for, as the technician would say it.
pub fn refusal_text(refusal: Refusal) -> String {
    let why = match refusal {
        Refusal::Unfit => {
            "no such drive row, alignments that are no powers of two up to 65536, or a share that does not fit them"
        }
        Refusal::TooLong => "with the blocks around it, the range is longer than the share",
        Refusal::Overflow => "the range, or the blocks around it, ends past 2^64 - 1",
        _ => return refusal.to_string(),
    };
    format!("{why} ({})", refusal.number())
}

/// A refusal of the library's, of which this program's own look does not find the place.
pub fn unfound(refusal: Refusal) -> String {
    format!("{refusal}; where is not known: pitchcase's own look comes to another end")
}

#[cfg(test)]
mod tests {
    use super::*;

    #[test]
    fn each_end_has_its_status() {
        assert_eq!(refused::<()>("x").unwrap_err().status(), 2);
        assert_eq!(failed::<()>("x").unwrap_err().status(), 1);
        assert_eq!(Trouble::Interrupted("x".into()).status(), 130);
    }

    #[test]
    fn a_name_is_one_line() {
        assert_eq!(name_of(Path::new("an 'image'\n\t\u{e9}")), "an 'image'\\n\\t\u{e9}");
    }

    #[test]
    fn a_reason_has_words_and_number() {
        assert_eq!(reason_of(28), "no space left on device (28)");
        assert_eq!(reason_of(5), "input/output error (5)");
    }

    #[test]
    fn a_place_that_is_not_found_is_said_to_be_unknown() {
        let text = unfound(Refusal::Row);
        assert!(text.starts_with("refused with 212: ") && text.ends_with("own look comes to another end"));
    }
}
