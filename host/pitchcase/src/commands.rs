//! The commands: all is looked over, the image is opened, then jobs are run and told of.

use crate::drive::{Drive, Planned};
use crate::image::{self, Access, Image, Kind};
use crate::input;
use crate::numbers::{both, Range};
use crate::options::{number, BytesWords, Command, Manner, Means, PlaceWords, RangeWords};
use crate::out::say;
use crate::report::{job_text, plural, Report};
use crate::script::{Entry, Form, JobLine, Verb};
use crate::sheet::{self, Sheet};
use crate::system;
use crate::table;
use crate::trouble::{failed, name_of, reason, refusal_text, refused, Outcome, Trouble};
use crate::work::{Bytes, End, Print, Work};
use pitch_dock::{Room, Runner, Settings, Table, Tally, SLOTS};
use serde_json::json;
use std::os::unix::fs::MetadataExt;
use std::path::{Path, PathBuf};

/// The share where it was not typed and fits.
const USUAL_SHARE: u64 = 65536;
/// No job reaches past this offset: a file has no byte past 2^63 - 1, and padding may add a block.
const LAST_END: u64 = (1 << 63) - 65536;
/// An edit that is longer shows only its first and last bytes.
const SHOWN_WHOLE: u64 = 65536;
/// How many of them.
const SHOWN_ENDS: u64 = 64;

/// The commands that run jobs.
#[derive(Clone, Copy, Debug, PartialEq, Eq)]
enum Name {
    Look,
    Edit,
    Zero,
    Discard,
    Fleet,
    Sheet,
}

impl Name {
    fn word(self) -> &'static str {
        match self {
            Name::Look => "look",
            Name::Edit => "edit",
            Name::Zero => "zero",
            Name::Discard => "discard",
            Name::Fleet => "fleet",
            Name::Sheet => "sheet",
        }
    }

    /// Whether it has many jobs, of which it lists those done and not done where it stops, and gives their total.
    fn is_list(self) -> bool {
        matches!(self, Name::Fleet | Name::Sheet)
    }
}

/// When the bytes of an edit are shown.
#[derive(Clone, Copy, Debug, PartialEq, Eq)]
enum When {
    Before,
    After,
}

/// What is to be done.
struct Asked {
    name: Name,
    image: PathBuf,
    entries: Vec<Entry>,
    /// The lines of a sheet, which were joined to the entries; of other commands none.
    lines: Vec<Entry>,
    bytes: Bytes,
    /// The file that bytes come from.
    from: Option<input::Identity>,
    print: Print,
    manner: Manner,
}

impl Asked {
    /// The drive table that was named.
    fn load_table(&self, is_stdin_closed: bool) -> Outcome<Option<Table>> {
        let path = self.manner.table()?;
        path.map(|path| table::load("--table", path, is_stdin_closed)).transpose()
    }

    /// How many bytes its jobs have together.
    fn bytes_in_all(&self) -> u64 {
        jobs(&self.entries).map(|job| job.range.length).sum()
    }

    /// The jobs as they were typed.
    fn typed(&self) -> &[Entry] {
        match self.name {
            Name::Sheet => &self.lines,
            _ => &self.entries,
        }
    }
}

/// An image that is open, and how its jobs are run.
struct Opened {
    image: Image,
    settings: Settings,
    means: Means,
    /// How many bytes the image has once it is lengthened.
    end: u64,
    plan: bool,
    /// How many requests are out together.
    out: usize,
}

/// Carries out a command.
pub fn run(command: Command, is_stdin_closed: bool) -> Outcome<()> {
    let asked = match command {
        Command::Info { image, direct, table, json } => {
            let loaded = table.as_deref().map(|path| table::load("--table", path, is_stdin_closed)).transpose()?;
            return info(&image, direct, table.as_deref().zip(loaded), json);
        }
        Command::Table { command } => return table::run(command, is_stdin_closed),
        Command::Look { range, raw, manner } => look(range, raw, manner)?,
        Command::Edit { place, bytes, manner } => edit(place, &bytes, manner, is_stdin_closed)?,
        Command::Zero { range, alloc, manner } => {
            let verb = if alloc { Verb::Alloc } else { Verb::Zero };
            of_range(Name::Zero, verb, range, manner)?
        }
        Command::Discard { range, manner } => of_range(Name::Discard, Verb::Discard, range, manner)?,
        Command::Fleet { image, script, manner } => fleet(image, &script, manner, is_stdin_closed)?,
        Command::Sheet { image, sheet, manner } => joined(image, &sheet, manner, is_stdin_closed)?,
    };
    let table = asked.load_table(is_stdin_closed)?;
    carry_out(asked, table.as_ref())
}

fn look(range: RangeWords, raw: bool, manner: Manner) -> Outcome<Asked> {
    let print = if raw { Print::Raw } else { Print::Rows };
    Ok(Asked { print, ..of_range(Name::Look, Verb::Read, range, manner)? })
}

/// A command of one job without bytes.
fn of_range(name: Name, verb: Verb, range: RangeWords, manner: Manner) -> Outcome<Asked> {
    let offset = number("OFFSET", &range.place.offset)?;
    let length = number("LENGTH", &range.length)?;
    let entries = vec![single(verb, Range { offset, length })];
    let image = range.place.image;
    let (lines, bytes, print) = (Vec::new(), Bytes::None, Print::Rows);
    Ok(Asked { name, image, entries, lines, bytes, from: None, print, manner })
}

fn edit(place: PlaceWords, words: &BytesWords, manner: Manner, is_stdin_closed: bool) -> Outcome<Asked> {
    let offset = number("OFFSET", &place.offset)?;
    check_input(&manner, "--from", words.from.as_deref())?;
    let edit = input::edit_bytes(words, is_stdin_closed)?;
    let entries = vec![single(Verb::Write, Range { offset, length: edit.length })];
    let (image, lines, bytes, from) = (place.image, Vec::new(), edit.bytes, edit.from);
    Ok(Asked { name: Name::Edit, image, entries, lines, bytes, from, print: Print::Rows, manner })
}

/// The jobs of a script.
fn fleet(image: PathBuf, path: &Path, manner: Manner, is_stdin_closed: bool) -> Outcome<Asked> {
    check_input(&manner, Form::Script.name(), Some(path))?;
    let mut script = input::script(Form::Script, path, is_stdin_closed)?;
    let (entries, lines) = (std::mem::take(&mut script.entries), Vec::new());
    let (bytes, print) = (Bytes::Script(script), Print::Lines);
    Ok(Asked { name: Name::Fleet, image, entries, lines, bytes, from: None, print, manner })
}

/// The ranges that the writes of a sheet are joined to.
fn joined(image: PathBuf, path: &Path, manner: Manner, is_stdin_closed: bool) -> Outcome<Asked> {
    check_input(&manner, Form::Sheet.name(), Some(path))?;
    let script = input::script(Form::Sheet, path, is_stdin_closed)?;
    let Sheet { lines, ranges: entries, bytes } = Sheet::join(script, path)?;
    let (bytes, print) = (Bytes::Memory(bytes), Print::Lines);
    Ok(Asked { name: Name::Sheet, image, entries, lines, bytes, from: None, print, manner })
}

/// Standard input has the table or the other file that a command reads, not both.
fn check_input(manner: &Manner, name: &str, path: Option<&Path>) -> Outcome<()> {
    let standard_input = Some(Path::new("-"));
    match manner.table()? == standard_input && path == standard_input {
        true => refused(format!("--table - and {name} -: standard input is read once")),
        false => Ok(()),
    }
}

fn single(verb: Verb, range: Range) -> Entry {
    Entry::Job { verb, range, line: 0, start: 0 }
}

/// The jobs of a list of entries.
fn jobs(entries: &[Entry]) -> impl Iterator<Item = JobLine> + '_ {
    entries.iter().filter_map(Entry::job)
}

impl Opened {
    /// Opens the image and looks every job over: after it nothing is refused any more.
    fn open(asked: &Asked, table: Option<&Table>) -> Outcome<Opened> {
        let manner = &asked.manner;
        let means = manner.means(table)?;
        let is_change = jobs(&asked.entries).any(|job| job.verb.is_change()) && !manner.plan;
        let lock = !manner.no_lock && !manner.plan;
        let image = image::open(&asked.image, Access { change: is_change, direct: manner.direct, lock })?;
        check_apart(asked, &image)?;
        let end = end_after(asked.typed(), &image, manner.grow)?;
        let settings = settings_of(&means, &image.found);
        if manner.direct {
            check_direct(&image, &settings, end)?;
        }
        if image.kind == Kind::Device {
            check_device(&asked.entries, &image, &settings)?;
        }
        let usual_out = if image.kind == Kind::Device || manner.direct { SLOTS } else { 1 };
        let out = means.out.unwrap_or(if means.order.is_some() || manner.plan { 1 } else { usual_out });
        Ok(Opened { image, settings, means, end, plan: manner.plan, out })
    }

    /// Lengthens a file to the end of its jobs, before they begin.
    fn grow(&self) -> Outcome<()> {
        if self.end == self.image.size || self.plan {
            return Ok(());
        }
        self.image.file.set_len(self.end).or_else(|error| failed(format!("--grow: {}", reason(&error))))
    }

    /// Runs entries to their end, on an image that has `size` bytes now.
    fn run(&self, runner: &mut Runner<'_>, mut work: Work<'_>, size: u64) -> (End, Tally) {
        let tally = if self.plan {
            runner.run(&mut work, &Planned)
        } else {
            let drive = Drive::new(&self.image.file, self.image.kind, size);
            match self.out {
                1 => runner.run(&mut work, &drive),
                out => runner.run_threads(out, &mut work, &drive),
            }
        };
        (work.finish(), tally)
    }

    /// Shows a range, before or after an edit: of a long one the first bytes and the last.
    fn show(&self, runner: &mut Runner<'_>, report: &mut Report, when: When, range: Range) -> Outcome<()> {
        let (heading, size) = match when {
            When::Before => ("before", self.image.size),
            When::After => ("after", self.end),
        };
        report.heading(heading);
        let last = Range { offset: range.offset + range.length.saturating_sub(SHOWN_ENDS), length: SHOWN_ENDS };
        let ranges = match range.length {
            0..=SHOWN_WHOLE => vec![range],
            _ => vec![Range { length: SHOWN_ENDS, ..range }, last],
        };
        for range in ranges {
            let entries = [single(Verb::Read, range)];
            let longest = runner.longest();
            let (end, _) = self.run(runner, Work::new(&entries, &Bytes::None, report, Print::Rows, longest), size);
            if let Some(why) = end.failure {
                return failed(why);
            }
        }
        Ok(())
    }
}

/// What is read and printed beside the image is another file than it.
fn check_apart(asked: &Asked, image: &Image) -> Outcome<()> {
    if asked.from == Some(image.identity) {
        return refused("--from: names the image itself");
    }
    for (descriptor, name) in [(1, "standard output"), (2, "standard error")] {
        let metadata = system::standing(descriptor).metadata();
        if metadata.is_ok_and(|metadata| (metadata.dev(), metadata.ino()) == image.identity) {
            return refused(format!("{name} goes to the image itself"));
        }
    }
    Ok(())
}

/// The image's size after the jobs, each of which ends inside it unless it may grow. Reads and discards lengthen
/// nothing.
fn end_after(entries: &[Entry], image: &Image, grow: bool) -> Outcome<u64> {
    let mut end = image.size;
    for job in jobs(entries) {
        let wrong = |why: String| refused(format!("{}: {why}", job_text(job)));
        let Some(job_end) = job.range.end() else { return wrong("ends past 2^64 - 1 (207)".into()) };
        if job_end > LAST_END {
            return wrong("ends past 2^63 - 65536, where a file may have no bytes".into());
        }
        if job_end <= image.size {
            continue;
        }
        if !grow {
            return wrong(format!("ends past the image's end, {}; --grow goes past it", both(image.size)));
        }
        if image.kind == Kind::Device {
            return wrong(format!("ends past the device's end, {}, and a device does not grow", both(image.size)));
        }
        if matches!(job.verb, Verb::Write | Verb::Zero | Verb::Alloc) && job.range.length > 0 {
            end = end.max(job_end);
        }
    }
    Ok(end)
}

/// Alignments as they were typed or found, and a share that fits them.
fn settings_of(means: &Means, found: &[u64; 4]) -> Settings {
    let [mem, req, zero, discard] = means.align.unwrap_or(*found);
    let block = mem.max(req);
    let least = zero.saturating_add(block).saturating_mul(2).checked_next_multiple_of(block).unwrap_or(0);
    let bounce = means.share.unwrap_or(USUAL_SHARE.max(least));
    Settings { mem, req, zero, discard, bounce }
}

/// Transfers past the cache are aligned as the system asks, and none can be cut at the image's end.
fn check_direct(image: &Image, settings: &Settings, end: u64) -> Outcome<()> {
    let [mem, req, ..] = image.found;
    if settings.mem < mem || settings.req < req {
        return refused(format!("--direct: needs alignments of memory and requests of at least {mem} and {req}"));
    }
    if end % req != 0 {
        return refused(format!("--direct: the image's size, {}, is no multiple of its block, {req}", both(end)));
    }
    Ok(())
}

/// A device takes zeroes and discards of whole blocks alone, past the cache or not.
fn check_device(entries: &[Entry], image: &Image, settings: &Settings) -> Outcome<()> {
    let req = image.found[1];
    let is_asked = jobs(entries).any(|job| !matches!(job.verb, Verb::Read | Verb::Write));
    if is_asked && (settings.zero < req || settings.discard < req) {
        return refused(format!("zeroes and discards of this device need alignments of at least {req}"));
    }
    Ok(())
}

/// Opens the image and a runner for it, and runs the jobs. Nothing is refused after that.
fn carry_out(asked: Asked, table: Option<&Table>) -> Outcome<()> {
    let opened = Opened::open(&asked, table)?;
    let settings = &opened.settings;
    let mut room = Room::new(settings, usize::try_from(settings.bounce).unwrap_or(0).min(1 << 20));
    let (data, scratch) = room.parts();
    let mut runner = match Runner::open(settings, data, scratch) {
        Ok(runner) => runner,
        Err(refusal) => {
            let Settings { mem, req, zero, discard, bounce } = settings;
            let typed = format!("--align {mem},{req},{zero},{discard} --share {bounce}");
            return refused(format!("{typed}: {}", refusal_text(refusal)));
        }
    };
    runner.set_order(opened.means.order.unwrap_or_default());
    if asked.manner.no_lock && !opened.plan {
        say("--no-lock: another process may change the image meanwhile, and either's edits may be lost");
    }
    run_jobs(&asked, &opened, &mut runner)
}

/// Runs the jobs, and says what they came to. An edit shows its bytes before and after.
fn run_jobs(asked: &Asked, opened: &Opened, runner: &mut Runner<'_>) -> Outcome<()> {
    let report = Report::new(asked.manner.json, asked.manner.trace, opened.plan);
    let mut report = if asked.name == Name::Sheet { report.of_ranges() } else { report };
    announce(asked, opened, &mut report);
    let is_edit = asked.name == Name::Edit && !opened.plan;
    let edited = jobs(&asked.entries).next().filter(|_| is_edit).map(|job| job.range);
    if let Some(range) = edited {
        opened.show(runner, &mut report, When::Before, range)?;
    }
    // From here on the image is changed: who would not hear of it is told now.
    report.out.settle("nothing was begun")?;
    if system::is_interrupted() {
        return Err(Trouble::Interrupted("nothing was begun".into()));
    }
    opened.grow()?;
    let print = if opened.plan { Print::Nothing } else { asked.print };
    let work = Work::new(&asked.entries, &asked.bytes, &mut report, print, runner.longest());
    let (end, tally) = opened.run(runner, work, opened.end);
    let synced = sync(asked, opened);
    // After an edit that failed too, where each byte is old or new; that it cannot be shown then is no news.
    let edited = edited.filter(|_| !system::is_interrupted());
    let shown = edited.map_or(Ok(()), |range| opened.show(runner, &mut report, When::After, range));
    conclude(asked, &mut report, end, tally, synced.and(shown))
}

/// The first line or object; of a sheet also its ranges.
fn announce(asked: &Asked, opened: &Opened, report: &mut Report) {
    if asked.print == Print::Raw {
        return;
    }
    let count = jobs(&asked.entries).count();
    let Settings { mem, req, zero, discard, bounce } = opened.settings;
    let mut fields = json!({
        "command": asked.name.word(), "image": asked.image.to_string_lossy(), "kind": opened.image.kind.word(),
        "size": opened.image.size, "align": [mem, req, zero, discard], "share": bounce, "out": opened.out,
        "jobs": count, "plan": opened.plan,
    });
    if asked.name == Name::Sheet {
        fields["lines"] = asked.lines.len().into();
        fields["bytes"] = asked.bytes_in_all().into();
    }
    report.start(first_line(asked, opened, report).as_deref(), fields);
    if asked.name == Name::Sheet {
        jobs(&asked.entries).for_each(|job| report.joined(job, &sheet::lines_in(&asked.lines, job.range)));
    }
}

/// The first line of a run that will change something, or has many jobs.
fn first_line(asked: &Asked, opened: &Opened, report: &Report) -> Option<String> {
    let image = name_of(&asked.image);
    let count = report.counted(jobs(&asked.entries).count() as u64);
    match asked.name {
        Name::Fleet => Some(format!("fleet {image}: {count}")),
        Name::Sheet => {
            let (lines, bytes) = (asked.lines.len() as u64, asked.bytes_in_all());
            Some(format!("sheet {image}: {lines} line{}, {count}, {bytes} byte{}", plural(lines), plural(bytes)))
        }
        Name::Zero | Name::Discard if !opened.plan => {
            jobs(&asked.entries).next().map(|job| format!("{}: begun", job_text(job)))
        }
        _ => None,
    }
}

/// What was changed reaches the drive.
fn sync(asked: &Asked, opened: &Opened) -> Outcome<()> {
    let is_change = jobs(&asked.entries).any(|job| job.verb.is_change());
    if !is_change || opened.plan {
        return Ok(());
    }
    opened.image.file.sync_all().or_else(|error| failed(format!("fsync: {}", reason(&error))))
}

/// The end of a run: its last lines, and its outcome.
fn conclude(asked: &Asked, report: &mut Report, end: End, tally: Tally, synced: Outcome<()>) -> Outcome<()> {
    let is_list = asked.name.is_list();
    if !end.is_whole && (is_list || !end.lines.partly.is_empty()) {
        report.lines(&end.lines);
    }
    if is_list {
        report.total(end.ended, tally);
    }
    let outcome = match (&end.failure, end.is_whole) {
        (Some(why), _) => failed(why.clone()),
        (None, true) => synced,
        (None, false) if report.out.is_broken() => Ok(()),
        (None, false) => synced.and_then(|()| Err(Trouble::Interrupted(interrupted(report, &end)))),
    };
    report.end(outcome.as_ref().err().map_or(0, Trouble::status), end.ended, tally);
    let after = if end.is_whole { "all jobs were done" } else { "not all jobs were done" };
    outcome.and(report.out.settle(after))
}

fn interrupted(report: &Report, end: &End) -> String {
    let done = report.counted(end.ended);
    format!("{done} done, {} partly, {} not begun", end.lines.partly.len(), end.lines.unbegun.len())
}

/// Prints what is found of an image, and which row of the table has its alignments, or which built-in one where no
/// table is named. Nothing of the image is read, and no lock taken.
fn info(path: &Path, direct: bool, table: Option<(&Path, Table)>, json: bool) -> Outcome<()> {
    let image = image::open(path, Access { change: false, direct, lock: false })?;
    let held = image::held(&image);
    let [mem, req, zero, discard] = image.found;
    let row = match &table {
        Some((_, table)) => table.rows().position(|row| row == image.found),
        None => Settings::ROWS.iter().position(|row| *row == image.found),
    };
    let mut report = Report::new(json, false, false);
    if json {
        let mut fields = json!({
            "image": path.to_string_lossy(), "kind": image.kind.word(), "size": image.size,
            "allocated": image.allocated, "align": image.found, "drive": row, "lock": held,
        });
        if let Some((name, _)) = table {
            fields["table"] = name.to_string_lossy().into();
        }
        report.object("info", fields);
    } else {
        let row = row.map_or("none".into(), |row| row.to_string());
        let of_table = table.map_or(String::new(), |(name, _)| format!(" of {}", name_of(name)));
        report.out.line(&format!("image:      {}", name_of(path)));
        report.out.line(&format!("kind:       {}", image.kind.word()));
        report.out.line(&format!("size:       {} bytes", both(image.size)));
        if image.kind == Kind::File {
            report.out.line(&format!("allocated:  {} bytes", both(image.allocated)));
        }
        report.out.line(&format!("alignments: {mem},{req},{zero},{discard} (memory, requests, zeroes, discards)"));
        report.out.line(&format!("drive row:  {row}{of_table}"));
        report.out.line(&format!("lock:       {held}"));
    }
    report.out.settle("nothing was begun")
}
