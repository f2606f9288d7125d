//! Numbers and bytes as they are typed, and offsets as they are printed.
//!
//! A number is decimal, or hex after `0x`, or decimal with one of the suffixes B, K, M, G, T, P, E (powers of 1024),
//! small or large, as qemu-io takes them. It is below 2^64. A hex number takes no suffix: B and E are digits there.
//! Fractions are refused.
//!
//! What is printed can be typed again: an offset is printed in decimal and in hex.

use std::fmt;

/// Why a word is no number or no bytes, and at which of its bytes, from 1 on, that is seen.
#[derive(Clone, Copy, Debug, PartialEq, Eq)]
pub struct Flaw {
    /// Which byte of the word; 0 where no single one is at fault.
    pub byte: usize,
    /// What is wrong.
    pub what: &'static str,
}

/// A range of bytes on the image; printed with its offset in both forms: `660+10 (0x294)`.
#[derive(Clone, Copy, Debug, PartialEq, Eq)]
pub struct Range {
    /// Where it starts.
    pub offset: u64,
    /// How many bytes it has.
    pub length: u64,
}

impl Range {
    /// The offset past its last byte; None past 2^64 − 1.
    pub fn end(&self) -> Option<u64> {
        self.offset.checked_add(self.length)
    }
}

impl fmt::Display for Range {
    fn fmt(&self, f: &mut fmt::Formatter<'_>) -> fmt::Result {
        write!(f, "{}+{} ({:#x})", self.offset, self.length, self.offset)
    }
}

/// A number in both forms: `660 (0x294)`.
pub fn both(number: u64) -> String {
    format!("{number} ({number:#x})")
}

const NOT_A_NUMBER: &str = "no number (decimal, 0x and hex, or decimal with B, K, M, G, T, P, E)";
const TOO_LARGE: &str = "2^64 or more";

/// The number that a word says.
pub fn number(word: &[u8]) -> Result<u64, Flaw> {
    if let [b'0', b'x' | b'X', digits @ ..] = word {
        return digits_value(digits, 16).map_err(|flaw| shifted(flaw, 2));
    }
    let (digits, shift) = match word.split_last() {
        Some((last, digits)) if !digits.is_empty() => match suffix_shift(*last) {
            Some(shift) => (digits, shift),
            None => (word, 0),
        },
        _ => (word, 0),
    };
    let value = digits_value(digits, 10)?;
    value.checked_mul(1 << shift).ok_or(Flaw { byte: 0, what: TOO_LARGE })
}

fn shifted(flaw: Flaw, by: usize) -> Flaw {
    Flaw { byte: if flaw.byte == 0 { 0 } else { flaw.byte + by }, ..flaw }
}

/// By how many bits a suffix shifts.
fn suffix_shift(letter: u8) -> Option<u32> {
    match letter.to_ascii_uppercase() {
        b'B' => Some(0),
        b'K' => Some(10),
        b'M' => Some(20),
        b'G' => Some(30),
        b'T' => Some(40),
        b'P' => Some(50),
        b'E' => Some(60),
        _ => None,
    }
}

/// The value of digits, of which there is at least one. A byte that is no digit is found before the value is too large.
fn digits_value(digits: &[u8], base: u32) -> Result<u64, Flaw> {
    let is_digit = |b: u8| char::from(b).is_digit(base);
    if let Some(at) = digits.iter().position(|&b| !is_digit(b)) {
        return Err(Flaw { byte: at + 1, what: NOT_A_NUMBER });
    }
    if digits.is_empty() {
        return Err(Flaw { byte: 1, what: NOT_A_NUMBER });
    }
    let add = |sum: u64, &b: &u8| {
        let digit = char::from(b).to_digit(base).unwrap_or(0);
        sum.checked_mul(base.into())?.checked_add(digit.into())
    };
    digits.iter().try_fold(0, add).ok_or(Flaw { byte: 0, what: TOO_LARGE })
}

/// The bytes that hex digits say, two to each. Blanks between bytes are skipped where `blanks`, so that a row of a dump
/// can be typed again; never inside a byte.
pub fn hex_bytes(digits: &[u8], blanks: bool) -> Result<Vec<u8>, Flaw> {
    let mut bytes = Vec::with_capacity(digits.len() / 2);
    let mut at = 0;
    while at < digits.len() {
        if blanks && digits[at].is_ascii_whitespace() {
            at += 1;
            continue;
        }
        bytes.push(16 * nibble(digits, at)? + nibble(digits, at + 1)?);
        at += 2;
    }
    if bytes.is_empty() {
        return Err(Flaw { byte: 0, what: "no byte" });
    }
    Ok(bytes)
}

/// Looks over the digits of a script's write, which stay as they are until it is begun; how many bytes they say.
pub fn hex_count(digits: &[u8]) -> Result<u64, Flaw> {
    if let Some(at) = digits.iter().position(|b| !b.is_ascii_hexdigit()) {
        return Err(Flaw { byte: at + 1, what: "no hex digit" });
    }
    if digits.len() % 2 == 1 {
        return Err(Flaw { byte: digits.len(), what: "an odd number of hex digits" });
    }
    Ok(digits.len() as u64 / 2)
}

/// Puts the bytes that digits say, which were looked over, into `bytes`.
pub fn put_hex(digits: &[u8], bytes: &mut [u8]) {
    for (pair, byte) in digits.chunks_exact(2).zip(bytes) {
        *byte = 16 * VALUES[pair[0] as usize] + VALUES[pair[1] as usize];
    }
}

/// The value of each hex digit, by its byte; 0 for others.
const VALUES: [u8; 256] = {
    let mut values = [0; 256];
    let mut i = 0;
    while i < 10 {
        values[b'0' as usize + i] = i as u8;
        i += 1;
    }
    i = 0;
    while i < 6 {
        values[b'a' as usize + i] = 10 + i as u8;
        values[b'A' as usize + i] = 10 + i as u8;
        i += 1;
    }
    values
};

fn nibble(digits: &[u8], at: usize) -> Result<u8, Flaw> {
    match digits.get(at) {
        None => Err(Flaw { byte: at, what: "an odd number of hex digits" }),
        Some(b) if b.is_ascii_hexdigit() => Ok(VALUES[*b as usize]),
        Some(_) => Err(Flaw { byte: at + 1, what: "no hex digit" }),
    }
}

#[cfg(test)]
mod tests {
    use super::*;

    #[test]
    fn numbers_as_qemu_io_takes_them() {
        let said = [
            ("0", 0),
            ("010", 10),
            ("660", 660),
            ("0x294", 660),
            ("0XfF", 255),
            ("1k", 1024),
            ("4K", 4096),
            ("3M", 3 << 20),
            ("2g", 2 << 30),
            ("1T", 1 << 40),
            ("7b", 7),
            ("15E", 15 << 60),
            ("18446744073709551615", u64::MAX),
            ("0xffffffffffffffff", u64::MAX),
            ("0x000000000280", 640),
        ];
        for (word, value) in said {
            assert_eq!(number(word.as_bytes()), Ok(value), "{word}");
        }
    }

    #[test]
    fn words_that_are_no_number_and_where() {
        let bad = [
            ("", 1),
            ("x", 1),
            ("-1", 1),
            ("1.5K", 2),
            ("0x", 3),
            ("0x1g", 4),
            ("12z4", 3),
            ("K", 1),
            ("1 ", 2),
            ("0x1K", 4),
        ];
        for (word, byte) in bad {
            assert_eq!(number(word.as_bytes()), Err(Flaw { byte, what: NOT_A_NUMBER }), "{word}");
        }
        for word in ["18446744073709551616", "16E", "0x10000000000000000", "99999999999999999999999999"] {
            assert_eq!(number(word.as_bytes()), Err(Flaw { byte: 0, what: TOO_LARGE }), "{word}");
        }
    }

    #[test]
    fn what_is_printed_can_be_typed_again() {
        for value in [0, 1, 660, 65536, u64::MAX] {
            let text = both(value);
            let (decimal, hex) = text.split_once(" (").unwrap();
            assert_eq!(number(decimal.as_bytes()), Ok(value));
            assert_eq!(number(hex.trim_end_matches(')').as_bytes()), Ok(value));
        }
        assert_eq!(Range { offset: 660, length: 10 }.to_string(), "660+10 (0x294)");
    }

    #[test]
    fn bytes_as_hex() {
        assert_eq!(hex_bytes(b"2b30Ff", false), Ok(vec![0x2b, 0x30, 0xff]));
        assert_eq!(hex_bytes(b" 2b 30\tff ", true), Ok(vec![0x2b, 0x30, 0xff]));
        assert_eq!(hex_bytes(b"2b 30", false).unwrap_err().byte, 3);
        assert_eq!(hex_bytes(b"2 b", true).unwrap_err(), Flaw { byte: 2, what: "no hex digit" });
        assert_eq!(hex_bytes(b"abc", true).unwrap_err(), Flaw { byte: 3, what: "an odd number of hex digits" });
        assert_eq!(hex_bytes(b"", true).unwrap_err(), Flaw { byte: 0, what: "no byte" });
    }

    #[test]
    fn digits_of_a_script() {
        assert_eq!(hex_count(b"aAbB00"), Ok(3));
        assert_eq!(hex_count(b"aag0"), Err(Flaw { byte: 3, what: "no hex digit" }));
        assert_eq!(hex_count(b"abc"), Err(Flaw { byte: 3, what: "an odd number of hex digits" }));
        let mut bytes = [0; 3];
        put_hex(b"2bfFA0", &mut bytes);
        assert_eq!(bytes, [0x2b, 0xff, 0xa0]);
    }
}
