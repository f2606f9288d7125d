//! The command line: what clap takes apart, and what its words say. A refusal of clap's becomes one line.

use crate::numbers;
use crate::script::shown;
use crate::trouble::{refused, Outcome, Trouble};
use clap::error::{ContextKind, ContextValue, ErrorKind};
use clap::{Args, Parser, Subcommand};
use pitch_dock::{Order, Settings, Table, SLOTS};
use std::ffi::{OsStr, OsString};
use std::os::unix::ffi::OsStrExt;
use std::path::{Path, PathBuf};

/// The version, and which library the program is linked with.
const VERSION: &str = concat!(env!("CARGO_PKG_VERSION"), " (libdock_c.a ", env!("PITCHCASE_LIBRARY"), ")");

const TOP_END: &str = "\
Numbers: decimal, 0x and hex, or decimal with B, K, M, G, T, P, E (powers of 1024).
Exit status: 0 done, 1 failed on the drive or standard output, 2 refused (nothing was begun), 130 interrupted.
Each command has a --help of its own; the man page is pitchcase(1).";

const LOOK_END: &str = "\
Examples:
  pitchcase look drive.img 640 128              128 bytes as hex and text
  pitchcase look drive.img 0x200 4K --raw > b   the bytes themselves, to a file";

const EDIT_END: &str = "\
Examples:
  pitchcase edit drive.img 660 --text +002.75deg
  pitchcase edit drive.img 0x294 --hex '2b 30 30 32'
  pitchcase edit /dev/sdb 1M --from records.bin --direct
  pitchcase edit drive.img 660 --text +002.75deg --plan
  pitchcase edit /dev/sdb 660 --text +002.75deg --table fleet.table --drive 2";

const ZERO_END: &str = "\
Examples:
  pitchcase zero drive.img 1M 64M               holes in the file stay holes
  pitchcase zero drive.img 1M 64M --alloc       zeroes that take up space";

const DISCARD_END: &str = "\
Example:
  pitchcase discard /dev/sdb 0 1G
What the bytes are afterwards is the drive's to say.";

const FLEET_END: &str = "\
A script has one job to a line; empty lines and those that start with # say nothing:
  read OFFSET LENGTH      write OFFSET HEXBYTES      zero OFFSET LENGTH
  alloc OFFSET LENGTH     discard OFFSET LENGTH      barrier
Jobs are begun in order, up to eight run together; where two change the same byte, either may come last. Nothing after
a barrier begins before all before it are done. After a job has failed none is begun any more.

Examples:
  pitchcase fleet drive.img angles.txt
  printf 'write 596 2b30\\nbarrier\\nread 596 10\\n' | pitchcase fleet drive.img - --trace";

const SHEET_END: &str = "\
A sheet has one write to a line, at most 64; empty lines and those that start with # say nothing:
  write OFFSET HEXBYTES
All are joined before any is made: where two lines cover a byte the later one wins, and ranges that touch become one.
The ranges are written up to eight at once, in any order. After one has failed none is begun any more. The bytes are
not shown; look does that.

Examples:
  pitchcase sheet drive.img pitch.sheet --plan  how many requests it would take; fleet --plan: without joining
  printf 'write 660 2b\\nwrite 661 303032\\n' | pitchcase sheet drive.img - --trace";

const INFO_END: &str = "\
Examples:
  pitchcase info /dev/sdb --direct
  pitchcase info /dev/sdb --table fleet.table   which row of the table it is";

const TABLE_END: &str = "\
A drive table has 1 to 64 rows of alignments, numbered from 0 on, and replaces the built-in ones whole: --table names it
beside --drive ROW. Its file has records: a length of two bytes, of what follows; a kind of two bytes; the body. Kind 1
is a row, of four numbers of four bytes: M, R, Z, D; all little-endian. Other kinds are passed over.";

const SHOW_END: &str = "\
Examples:
  pitchcase table show fleet.table
  pitchcase table show fleet.table > fleet.rows   text, of which make makes the same rows again";

const MAKE_END: &str = "\
The text has a row to a line, M,R,Z,D; a # and what follows it say nothing, nor do empty lines:
  1,4096,4096,4096      # alignments of memory, requests, zero requests, discards
  512, 4K, 64K, 64K

Examples:
  pitchcase table make fleet.rows fleet.table
  pitchcase table show old.table | pitchcase table make - new.table";

/// Looks at and edits byte ranges of a drive or its image, in whole aligned blocks; no byte outside the range changes
#[derive(Debug, Parser)]
#[command(name = "pitchcase", version = VERSION, after_help = TOP_END, disable_help_subcommand = true)]
pub struct CommandLine {
    /// The command.
    #[command(subcommand)]
    pub command: Command,
}

/// The commands.
#[derive(Debug, Subcommand)]
pub enum Command {
    /// Reads a byte range and prints it as hex and text
    #[command(after_help = LOOK_END)]
    Look {
        #[command(flatten)]
        range: RangeWords,
        /// Writes the bytes themselves to standard output
        #[arg(long, conflicts_with_all = ["trace", "json", "plan"])]
        raw: bool,
        #[command(flatten)]
        manner: Manner,
    },
    /// Writes bytes at an offset, and shows those before and after
    #[command(after_help = EDIT_END)]
    Edit {
        #[command(flatten)]
        place: PlaceWords,
        #[command(flatten)]
        bytes: BytesWords,
        #[command(flatten)]
        manner: Manner,
    },
    /// Makes a byte range zeroes
    #[command(after_help = ZERO_END)]
    Zero {
        #[command(flatten)]
        range: RangeWords,
        /// The zeroes take up space
        #[arg(long)]
        alloc: bool,
        #[command(flatten)]
        manner: Manner,
    },
    /// Forgets the content of the whole discard blocks in a byte range
    #[command(after_help = DISCARD_END)]
    Discard {
        #[command(flatten)]
        range: RangeWords,
        #[command(flatten)]
        manner: Manner,
    },
    /// Runs the jobs of a script, up to eight at once
    #[command(after_help = FLEET_END)]
    Fleet {
        /// Drive image: a regular file or a block device
        image: PathBuf,
        /// File of jobs; - is standard input
        script: PathBuf,
        #[command(flatten)]
        manner: Manner,
    },
    /// Makes the writes of a sheet in one trip, joined to as few ranges as they can be
    #[command(after_help = SHEET_END)]
    Sheet {
        /// Drive image: a regular file or a block device
        image: PathBuf,
        /// File of writes; - is standard input
        sheet: PathBuf,
        #[command(flatten)]
        manner: Manner,
    },
    /// Prints size, kind and the alignments found
    #[command(after_help = INFO_END)]
    Info {
        /// Drive image: a regular file or a block device
        image: PathBuf,
        /// The alignments of transfers past the system's cache
        #[arg(long)]
        direct: bool,
        /// Names the row of this drive table instead of a built-in one; - is standard input
        #[arg(long, value_name = "FILE")]
        table: Option<PathBuf>,
        /// Prints a JSON object
        #[arg(long)]
        json: bool,
    },
    /// Shows drive tables, and makes them of text
    #[command(after_help = TABLE_END, disable_help_subcommand = true)]
    Table {
        #[command(subcommand)]
        command: TableCommand,
    },
}

/// The commands on drive tables.
#[derive(Debug, Subcommand)]
pub enum TableCommand {
    /// Prints the rows of a drive table
    #[command(after_help = SHOW_END)]
    Show {
        /// Drive table; - is standard input
        table: PathBuf,
        /// Prints JSON objects, one to a line
        #[arg(long)]
        json: bool,
    },
    /// Makes a drive table of text
    #[command(after_help = MAKE_END)]
    Make {
        /// File of rows; - is standard input
        text: PathBuf,
        /// Drive table to be made; - is standard output
        table: PathBuf,
        /// Replaces a table that is there already
        #[arg(long)]
        replace: bool,
    },
}

/// Image and offset.
#[derive(Debug, Args)]
pub struct PlaceWords {
    /// Drive image: a regular file or a block device
    pub image: PathBuf,
    /// Where the range starts
    #[arg(allow_negative_numbers = true)]
    pub offset: OsString,
}

/// Image, offset and length.
#[derive(Debug, Args)]
pub struct RangeWords {
    #[command(flatten)]
    pub place: PlaceWords,
    /// How many bytes it has
    #[arg(allow_negative_numbers = true)]
    pub length: OsString,
}

/// What an edit writes: one of the three.
#[derive(Debug, Args)]
pub struct BytesWords {
    /// The bytes, two hex digits each; blanks between them are skipped
    #[arg(long, value_name = "HEXBYTES", allow_hyphen_values = true)]
    pub hex: Option<OsString>,
    /// The bytes, as text
    #[arg(long, value_name = "TEXT", allow_hyphen_values = true)]
    pub text: Option<OsString>,
    /// The bytes of a file; - is standard input
    #[arg(long, value_name = "FILE", allow_hyphen_values = true)]
    pub from: Option<PathBuf>,
}

/// How a command is carried out.
#[derive(Debug, Args)]
pub struct Manner {
    /// Drive row 0 to 5 of document 01, or a row of --table; found by itself where neither this nor --align is given
    #[arg(long, value_name = "ROW", conflicts_with = "align", allow_negative_numbers = true)]
    drive: Option<OsString>,
    /// Drive table whose rows --drive counts, instead of the built-in ones; - is standard input
    #[arg(long, value_name = "FILE")]
    table: Option<PathBuf>,
    /// Alignments of memory, requests, zero requests and discards
    #[arg(long, value_name = "M,R,Z,D")]
    align: Option<OsString>,
    /// Bytes of a job at most, and of its scratch: a multiple of L, the greater of M and R, at least 2Z + 2L; 64K where
    /// it fits
    #[arg(long, value_name = "BYTES", allow_negative_numbers = true)]
    share: Option<OsString>,
    /// Which request that is due comes next: first (due longest), round, or a seed
    #[arg(long, value_name = "ORDER")]
    order: Option<OsString>,
    /// How many requests are out together at most, 1 to 8; 1 for a file in the system's cache, 8 for a device or
    /// --direct
    #[arg(long, value_name = "COUNT", allow_negative_numbers = true)]
    out: Option<OsString>,
    /// Prints every request with its answer and who waits after it, and every job
    #[arg(long)]
    pub trace: bool,
    /// Makes no request: prints what would be made
    #[arg(long)]
    pub plan: bool,
    /// Prints JSON objects, one to a line
    #[arg(long)]
    pub json: bool,
    /// Goes past the system's cache (O_DIRECT)
    #[arg(long)]
    pub direct: bool,
    /// Lengthens a file to the end of the ranges; a read past the end gives zeroes and lengthens nothing
    #[arg(long)]
    pub grow: bool,
    /// Takes no lock: another process may change the image meanwhile, and either's edits may be lost
    #[arg(long)]
    pub no_lock: bool,
}

/// What the words of a `Manner` say.
#[derive(Clone, Copy, Debug, PartialEq, Eq)]
pub struct Means {
    /// Alignments M, R, Z, D that were typed.
    pub align: Option<[u64; 4]>,
    /// The share that was typed.
    pub share: Option<u64>,
    /// The order that was typed.
    pub order: Option<Order>,
    /// How many requests may be out together, where that was typed.
    pub out: Option<usize>,
}

impl Manner {
    /// The table that rows are of, where one is named; it is of no use without a row.
    pub fn table(&self) -> Outcome<Option<&Path>> {
        match (&self.table, &self.drive) {
            (Some(_), None) => refused("--table: needs --drive, which says the row of the table"),
            (table, _) => Ok(table.as_deref()),
        }
    }

    /// Takes the words apart. `table` is the one that was named.
    pub fn means(&self, table: Option<&Table>) -> Outcome<Means> {
        let align = match (&self.drive, &self.align) {
            (Some(row), _) => Some(row_alignments(row, table)?),
            (None, Some(words)) => Some(typed_alignments(words)?),
            (None, None) => None,
        };
        let share = self.share.as_deref().map(|word| number("--share", word)).transpose()?;
        let order = self.order.as_deref().map(order).transpose()?;
        let out = self.out.as_deref().map(out_count).transpose()?;
        if order.is_some() && out.is_some_and(|out| out > 1) {
            return refused("--order: needs --out 1: of requests that are out together none comes first");
        }
        Ok(Means { align, share, order, out })
    }
}

/// A word as it is shown in a refusal.
fn shown_word(word: &OsStr) -> String {
    shown(word.as_bytes())
}

/// The number that a word of the command line says, which is called `name` there.
pub fn number(name: &str, word: &OsStr) -> Outcome<u64> {
    numbers::number(word.as_bytes()).or_else(|flaw| flawed(name, word, flaw))
}

/// The bytes of --hex.
pub fn hex(word: &OsStr) -> Outcome<Vec<u8>> {
    numbers::hex_bytes(word.as_bytes(), true).or_else(|flaw| flawed("--hex", word, flaw))
}

fn flawed<T>(name: &str, word: &OsStr, flaw: numbers::Flaw) -> Outcome<T> {
    let at = if flaw.byte == 0 { String::new() } else { format!(", byte {}", flaw.byte) };
    refused(format!("{name} '{}'{at}: {}", shown_word(word), flaw.what))
}

/// The alignments of a row of the table, or of a built-in one where there is none.
fn row_alignments(word: &OsStr, table: Option<&Table>) -> Outcome<[u64; 4]> {
    let row = usize::try_from(number("--drive", word)?).unwrap_or(usize::MAX);
    let (found, none) = match table {
        Some(table) => (table.row(row).ok(), format!(" of the table, 0 to {} (201)", table.len() - 1)),
        None => (Settings::ROWS.get(row).copied(), format!(" (0 to {})", Settings::ROWS.len() - 1)),
    };
    found.map_or_else(|| refused(format!("--drive '{}': no such drive row{none}", shown_word(word))), Ok)
}

fn typed_alignments(words: &OsStr) -> Outcome<[u64; 4]> {
    let parts: Vec<&[u8]> = words.as_bytes().split(|&b| b == b',').collect();
    let Ok(parts) = <[&[u8]; 4]>::try_from(parts) else {
        return refused(format!("--align '{}': takes four numbers, M,R,Z,D", shown_word(words)));
    };
    let mut values = [0; 4];
    for (value, part) in values.iter_mut().zip(parts) {
        *value = number("--align", OsStr::from_bytes(part))?;
    }
    Ok(values)
}

fn order(word: &OsStr) -> Outcome<Order> {
    match word.as_bytes() {
        b"first" => Ok(Order::First),
        b"round" => Ok(Order::RoundRobin),
        seed => match numbers::number(seed) {
            Ok(seed) => Ok(Order::Seed(seed)),
            Err(_) => {
                refused(format!("--order '{}': takes first, round or a seed, a number below 2^64", shown_word(word)))
            }
        },
    }
}

fn out_count(word: &OsStr) -> Outcome<usize> {
    match number("--out", word)? {
        count @ 1..=8 => Ok(count as usize),
        _ => refused(format!("--out '{}': takes 1 to {SLOTS}", shown_word(word))),
    }
}

/// What the command line says, or what is to be printed instead (help, version).
pub enum Said {
    /// A command.
    Command(Command),
    /// Text for standard output.
    Text(String),
}

/// Takes the command line apart.
pub fn parse(words: impl IntoIterator<Item = OsString>) -> Outcome<Said> {
    let words: Vec<OsString> = words.into_iter().collect();
    match CommandLine::try_parse_from(&words) {
        Ok(line) => Ok(Said::Command(line.command)),
        Err(error) => match error.kind() {
            ErrorKind::DisplayHelp | ErrorKind::DisplayVersion => Ok(Said::Text(error.to_string())),
            _ => Err(one_line(&error, commands_of(&words))),
        },
    }
}

/// The commands that a command line may choose from.
fn commands_of(words: &[OsString]) -> &'static str {
    match words.get(1).is_some_and(|word| word == "table") {
        true => "show, make",
        false => "look, edit, zero, discard, fleet, sheet, info, table",
    }
}

/// Words that an error of clap's is about, with blanks between.
fn context(error: &clap::Error, kind: ContextKind) -> String {
    let value = error.context().find(|(k, _)| *k == kind).map(|(_, value)| value);
    let text = match value {
        Some(ContextValue::String(text)) => text.clone(),
        Some(ContextValue::Strings(texts)) => texts.join(" "),
        _ => String::new(),
    };
    text.escape_debug().to_string()
}

/// clap's refusal as one line that names the word.
fn one_line(error: &clap::Error, commands: &str) -> Trouble {
    let word = context(error, ContextKind::InvalidArg);
    let why = match error.kind() {
        ErrorKind::MissingSubcommand | ErrorKind::DisplayHelpOnMissingArgumentOrSubcommand => {
            format!("a command is missing ({commands}; --help says more)")
        }
        ErrorKind::InvalidSubcommand => {
            format!("'{}': no such command ({commands})", context(error, ContextKind::InvalidSubcommand))
        }
        ErrorKind::UnknownArgument if word.starts_with('-') => format!("'{word}': no such option (--help lists them)"),
        ErrorKind::UnknownArgument | ErrorKind::TooManyValues => format!("'{word}': a word too many"),
        ErrorKind::MissingRequiredArgument => format!("a word is missing: {word}"),
        ErrorKind::ArgumentConflict => {
            let other = context(error, ContextKind::PriorArg);
            match word == other {
                true => format!("'{word}': given twice"),
                false => format!("'{word}': does not go with '{other}'"),
            }
        }
        ErrorKind::InvalidValue | ErrorKind::TooFewValues | ErrorKind::WrongNumberOfValues => {
            format!("'{word}': its value is missing")
        }
        _ => error.to_string().lines().next().unwrap_or_default().trim_start_matches("error: ").to_string(),
    };
    Trouble::Refused(why)
}

#[cfg(test)]
mod tests {
    use super::*;

    fn parsed(words: &str) -> Outcome<Said> {
        parse(["pitchcase"].into_iter().chain(words.split_whitespace()).map(OsString::from))
    }

    fn refusal(words: &str) -> String {
        match parsed(words) {
            Err(trouble) => trouble.to_string(),
            Ok(_) => panic!("{words}: not refused"),
        }
    }

    #[test]
    fn the_definition_holds_together() {
        use clap::CommandFactory;
        CommandLine::command().debug_assert();
    }

    #[test]
    fn each_refusal_is_one_line() {
        let commands = "look, edit, zero, discard, fleet, sheet, info, table";
        let bad = [
            ("", "refused: a command is missing (COMMANDS; --help says more)"),
            ("lok a 0 1", "refused: 'lok': no such command (COMMANDS)"),
            ("table", "refused: a command is missing (show, make; --help says more)"),
            ("table look a", "refused: 'look': no such command (show, make)"),
            ("table help", "refused: 'help': no such command (show, make)"),
            ("table make a", "refused: a word is missing: <TABLE>"),
            ("table show a --replace", "refused: '--replace': no such option (--help lists them)"),
            ("sheet a", "refused: a word is missing: <SHEET>"),
            ("look a 0", "refused: a word is missing: <LENGTH>"),
            ("look a 0 1 5", "refused: '5': a word too many"),
            ("look a 0 1 --trce", "refused: '--trce': no such option (--help lists them)"),
            ("look a 0 1 --drive", "refused: '--drive <ROW>': its value is missing"),
            ("look a 0 1 --drive 1 --align 1,1,1,1", "refused: '--drive <ROW>': does not go with '--align <M,R,Z,D>'"),
        ];
        for (words, line) in bad {
            assert_eq!(refusal(words), line.replace("COMMANDS", commands), "{words}");
        }
    }

    fn manner(words: &str) -> Outcome<Manner> {
        match parsed(&format!("look a 0 1 {words}"))? {
            Said::Command(Command::Look { manner, .. }) => Ok(manner),
            _ => panic!("no look"),
        }
    }

    fn means(words: &str) -> Outcome<Means> {
        manner(words)?.means(None)
    }

    #[test]
    fn options_say_what_they_mean() {
        let none = Means { align: None, share: None, order: None, out: None };
        assert_eq!(means(""), Ok(none));
        assert_eq!(means("--drive 3").unwrap().align, Some([4096, 4096, 4096, 65536]));
        assert_eq!(means("--align 1,512,4K,0x1000").unwrap().align, Some([1, 512, 4096, 4096]));
        assert_eq!(means("--share 16K --out 4").unwrap(), Means { share: Some(16384), out: Some(4), ..none });
        assert_eq!(means("--order round").unwrap().order, Some(Order::RoundRobin));
        assert_eq!(means("--order 7 --out 1").unwrap().order, Some(Order::Seed(7)));
        for bad in
            ["--drive 6", "--drive -1", "--align 1,2,3", "--order last", "--out 0", "--out 9", "--order 7 --out 2"]
        {
            assert_eq!(means(bad).unwrap_err().status(), 2, "{bad}");
        }
    }

    #[test]
    fn a_row_is_of_the_table_where_there_is_one() {
        let table = Table::of_rows(&[[1, 4096, 4096, 4096], [2; 4]]).unwrap();
        let align = |words: &str| manner(words)?.means(Some(&table)).map(|means| means.align);
        assert_eq!(align("--drive 0"), Ok(Some([1, 4096, 4096, 4096])));
        assert_eq!(align("--drive 1"), Ok(Some([2; 4])));
        for row in ["2", "5", "64", "18446744073709551615"] {
            let wanted = format!("refused: --drive '{row}': no such drive row of the table, 0 to 1 (201)");
            assert_eq!(align(&format!("--drive {row}")).unwrap_err().to_string(), wanted);
        }
        assert_eq!(manner("--table - --drive 1").unwrap().table(), Ok(Some(Path::new("-"))));
        assert_eq!(manner("--table a --align 1,1,1,1").unwrap().table().unwrap_err().status(), 2);
        assert_eq!(manner("").unwrap().table(), Ok(None));
    }

    #[test]
    fn text_may_start_with_a_minus() {
        let Ok(Said::Command(Command::Edit { bytes, .. })) = parsed("edit a 0 --text -02.75deg") else {
            panic!("refused")
        };
        assert_eq!(bytes.text, Some("-02.75deg".into()));
    }
}
