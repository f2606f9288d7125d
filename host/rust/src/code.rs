//! Codes: what a store says of a request that it has carried out.

use std::io;

/// EPERM, which as a number would say "unsupported".
const EPERM: i32 = 1;
const EIO: u8 = 5;
const EACCES: u8 = 13;
const ENOTTY: i32 = 25;
const ENOSYS: i32 = 38;
const EOPNOTSUPP: i32 = 95;

/// What a store says of a request: 0 done, 1 unsupported, 2 to 199 failed. No other number can be held, so each is an
/// answer to the dock.
///
/// An [`io::Error`] becomes the system's number for it, with two exceptions: EPERM becomes EACCES (13), since 1 would
/// say "unsupported"; an error without a number, or with one past 199, becomes EIO (5).
///
/// ```
/// use pitch_dock::Code;
/// use std::io;
/// assert_eq!(Code::from(io::Error::from_raw_os_error(28)), Code::failed(28));
/// assert_eq!(Code::from(io::Error::from_raw_os_error(1)), Code::failed(13));
/// assert_eq!(Code::from(io::Result::Ok(())), Code::DONE);
/// ```
#[derive(Clone, Copy, Debug, PartialEq, Eq, Hash)]
pub struct Code(u8);

impl Code {
    /// 0: carried out.
    pub const DONE: Code = Code(0);
    /// 1: the store cannot do that at all. Zeroes are written instead, a discard counts as done; a read or a write ends
    /// its job.
    pub const UNSUPPORTED: Code = Code(1);

    /// 2 to 199: failed with this number. Any other is no failure's and becomes EIO (5).
    pub const fn failed(number: u8) -> Code {
        match number {
            2..=199 => Code(number),
            _ => Code(EIO),
        }
    }

    /// The code of an error of a request that a system need not support, a zero or a discard: [`Code::UNSUPPORTED`]
    /// where the system said so (EOPNOTSUPP, ENOSYS, ENOTTY), otherwise as for any error.
    pub fn of_optional(error: io::Error) -> Code {
        match error.raw_os_error() {
            Some(EOPNOTSUPP | ENOSYS | ENOTTY) => Code::UNSUPPORTED,
            _ => Code::from(error),
        }
    }

    /// Its number, as it is told to the dock.
    pub const fn number(self) -> u8 {
        self.0
    }
}

impl From<&io::Error> for Code {
    fn from(error: &io::Error) -> Code {
        match error.raw_os_error() {
            Some(EPERM) => Code(EACCES),
            Some(number) => Code::failed(u8::try_from(number).unwrap_or(EIO)),
            None => Code(EIO),
        }
    }
}

impl From<io::Error> for Code {
    fn from(error: io::Error) -> Code {
        Code::from(&error)
    }
}

impl From<io::Result<()>> for Code {
    fn from(result: io::Result<()>) -> Code {
        match result {
            Ok(()) => Code::DONE,
            Err(error) => Code::from(error),
        }
    }
}

#[cfg(test)]
mod tests {
    use super::*;

    fn system(number: i32) -> io::Error {
        io::Error::from_raw_os_error(number)
    }

    #[test]
    fn an_error_keeps_its_number_from_2_to_199() {
        for number in 2..=199 {
            assert_eq!(i32::from(Code::from(&system(number)).number()), number);
            assert_eq!(i32::from(Code::failed(number as u8).number()), number);
        }
    }

    #[test]
    fn no_error_is_done_or_unsupported() {
        assert_eq!(Code::from(system(1)), Code::failed(13));
        for number in [i32::MIN, -1, 0, 200, 255, 256, 257, 4096, i32::MAX] {
            assert_eq!(Code::from(system(number)).number(), 5, "{number}");
        }
        for kind in [io::ErrorKind::Unsupported, io::ErrorKind::PermissionDenied, io::ErrorKind::WriteZero] {
            assert_eq!(Code::from(io::Error::from(kind)).number(), 5, "{kind:?}");
        }
        for number in [0, 1, 200, 255] {
            assert_eq!(Code::failed(number).number(), 5, "{number}");
        }
    }

    #[test]
    fn unsupported_is_what_the_system_calls_so_and_only_for_optional_requests() {
        for number in [25, 38, 95] {
            assert_eq!(Code::of_optional(system(number)), Code::UNSUPPORTED);
            assert_eq!(i32::from(Code::from(system(number)).number()), number);
        }
        for (number, code) in [(1, 13), (5, 5), (22, 22), (28, 28), (1000, 5)] {
            assert_eq!(Code::of_optional(system(number)).number(), code, "{number}");
        }
        assert_eq!(Code::of_optional(io::Error::from(io::ErrorKind::Unsupported)).number(), 5);
    }

    #[test]
    fn a_result_has_the_code_of_its_error_or_is_done() {
        assert_eq!(Code::from(Ok(())), Code::DONE);
        assert_eq!(Code::from(io::Result::Err(system(28))), Code::failed(28));
    }
}
