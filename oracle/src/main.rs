//! The commands: see the usage below and README.md.

use oracle::coverage::Coverage;
use oracle::document::LONGEST_BOUNCE;
use oracle::document_parts::{DocumentPlanner, DocumentVectors};
use oracle::document_side::{DocumentSide, NotedBlockers};
use oracle::event::Event;
use oracle::fixed::fixed;
use oracle::imago_parts::{ImagoBlockers, ImagoPlanner, ImagoVectors};
use oracle::imago_side::ImagoSide;
use oracle::lists::{random_list, Worlds, MEMORY, SCRIPTS};
use oracle::parts;
use oracle::plant::{Fault, Planted, FAULTS};
use oracle::progress::Progress;
use oracle::replay::{imago_trace, Replay};
use oracle::runner::{run_lists, run_parts, run_replay, vector_data, Found, Run};
use oracle::script::parse;
use oracle::side::{Blockers, Planner, Vectors};
use oracle::store::Content;
use std::env;
use std::fs;
use std::io::{self, Read};
use std::path::Path;
use std::process::ExitCode;

const USAGE: &str = "\
oracle lists  [--lists N] [--seed S] [--plant NAME] [--side rules|dock] [--share N] [--from N] [--threads N]
                                                      imago against document 01's rules, or the dock, in one process
oracle parts  [--lists N] [--seed S] [--side rules|dock]
                                                      vectors, write blockers and the planner, each alone
oracle replay [--lists N] [--seed S] [--plant NAME] [--program PATH]
                                                      imago against the program `replay`, by scripts
oracle fixed  [--seed S] [--out DIR]                  writes the fixed list: DIR/stdin and imago's DIR/stdout
oracle reach  [--lists N] [--seed S] [--share N]      how often the lists of `lists`, then of `replay`, reach what
oracle trace                                          imago's trace of a script on standard input";

/// What is compared with imago in one process.
#[derive(Clone, Copy)]
enum Against {
    /// Document 01's rules, in Rust.
    Rules,
    /// The dock behind its C boundary.
    Dock,
}

struct Options {
    run: Run,
    against: Against,
    share: Option<u64>,
    fault: Option<Fault>,
    program: String,
    out: String,
}

impl Options {
    fn worlds(&self) -> Worlds {
        self.share.map_or(MEMORY.into(), Worlds::at)
    }
}

fn number(text: Option<String>) -> Result<u64, String> {
    text.and_then(|t| t.parse().ok()).ok_or_else(|| "a number is missing".to_owned())
}

fn fault_named(name: &str) -> Result<Fault, String> {
    let names: Vec<&str> = FAULTS.iter().map(|(name, _)| *name).collect();
    let found = FAULTS.iter().find(|(n, _)| *n == name);
    found.map(|(_, fault)| *fault).ok_or_else(|| format!("--plant takes one of {}", names.join(", ")))
}

fn against(name: &str) -> Result<Against, String> {
    match name {
        "rules" => Ok(Against::Rules),
        "dock" => Ok(Against::Dock),
        _ => Err("--side takes rules or dock".to_owned()),
    }
}

fn share(number: u64) -> Result<u64, String> {
    let fits = (1..=LONGEST_BOUNCE).contains(&number);
    fits.then_some(number).ok_or_else(|| format!("--share takes a number up to {LONGEST_BOUNCE}"))
}

fn options(mut args: env::Args) -> Result<Options, String> {
    let (program, out) = ("../crates/replay/out/replay".to_owned(), "../crates/imago_list".to_owned());
    let mut o = Options { run: Run::of(10_000, 1), against: Against::Rules, share: None, fault: None, program, out };
    while let Some(arg) = args.next() {
        match arg.as_str() {
            "--lists" => o.run.lists = number(args.next())?,
            "--seed" => o.run.seed = number(args.next())?,
            "--from" => o.run.from = number(args.next())?,
            "--threads" => o.run.threads = number(args.next())?.clamp(1, 64) as usize,
            "--side" => o.against = against(&args.next().unwrap_or_default())?,
            "--share" => o.share = Some(share(number(args.next())?)?),
            "--plant" => o.fault = Some(fault_named(&args.next().unwrap_or_default())?),
            "--program" => o.program = args.next().ok_or("--program takes a path")?,
            "--out" => o.out = args.next().ok_or("--out takes a folder")?,
            _ => return Err(format!("no option {arg}\n{USAGE}")),
        }
    }
    Ok(o)
}

fn lists(o: &Options) -> Result<u64, String> {
    let (progress, found) = match o.against {
        Against::Rules => {
            run_lists(o.run, o.worlds(), ImagoSide::new, |c: &Content| Planted::new(DocumentSide::new(c), o.fault))
        }
        Against::Dock => dock::lists(o)?,
    };
    found.iter().for_each(|f| f.show());
    progress.show();
    Ok(progress.differences())
}

fn parts(o: &Options) -> Result<u64, String> {
    let (progress, found) = match o.against {
        Against::Rules => {
            let vectors = &mut DocumentVectors::new(&vector_data());
            parts_with(o, NotedBlockers::default, vectors, &mut DocumentPlanner)
        }
        Against::Dock => dock::parts(o)?,
    };
    found.iter().for_each(|what| println!("{what}"));
    progress.show();
    Ok(progress.differences())
}

fn parts_with<B: Blockers>(
    o: &Options,
    blockers: impl Fn() -> B,
    vectors: &mut impl Vectors,
    planner: &mut impl Planner,
) -> (Progress, parts::Found) {
    let imago = &mut ImagoVectors::new(&vector_data());
    run_parts(o.run, (ImagoBlockers::default, blockers), (imago, vectors), (&mut ImagoPlanner, planner))
}

#[cfg(dock)]
mod dock {
    use super::*;
    use oracle::dock_parts::{DockBlockers, DockVectors};
    use oracle::dock_side::{DockPlanner, DockSide};

    pub fn lists(o: &Options) -> Result<(Progress, Option<Found>), String> {
        let planted = |content: &Content| Planted::new(DockSide::new(content), o.fault);
        Ok(run_lists(o.run, o.worlds(), ImagoSide::new, planted))
    }

    pub fn parts(o: &Options) -> Result<(Progress, parts::Found), String> {
        let vectors = &mut DockVectors::new(&vector_data());
        Ok(parts_with(o, DockBlockers::default, vectors, &mut DockPlanner))
    }
}

#[cfg(not(dock))]
mod dock {
    use super::*;

    const NONE: &str = "built without the dock: make libdock_c.a (rt lib in crates/dock_c), or set DOCK_LIB";

    pub fn lists(_: &Options) -> Result<(Progress, Option<Found>), String> {
        Err(NONE.to_owned())
    }

    pub fn parts(_: &Options) -> Result<(Progress, parts::Found), String> {
        Err(NONE.to_owned())
    }
}

fn replay(o: &Options) -> Result<u64, String> {
    let replay = Replay { program: o.program.clone().into(), fault: o.fault };
    let (progress, found) = run_replay(o.run, &replay).map_err(|e| format!("{}: {e}", o.program))?;
    found.iter().for_each(|f| f.show());
    progress.show();
    Ok(progress.differences())
}

fn fixed_list(o: &Options) -> Result<u64, String> {
    let made = fixed(o.run.seed);
    let write = |name: &str, text: &str| fs::write(Path::new(&o.out).join(name), text);
    let written = fs::create_dir_all(&o.out)
        .and_then(|()| write("stdin", &made.script))
        .and_then(|()| write("stdout", &made.trace));
    written.map_err(|e| format!("{}: {e}", o.out))?;
    made.coverage.show();
    let (script, trace) = (made.script.len(), made.trace.len());
    println!("{} lists, {} events, {script} bytes of script, {trace} of trace", made.lists, made.events);
    Ok(0)
}

fn reach(o: &Options) -> u64 {
    for (name, worlds) in [("lists", o.worlds()), ("replay", SCRIPTS.into())] {
        let mut coverage = Coverage::default();
        for list in 0..o.run.lists {
            let world = worlds.of(list);
            coverage.merge(&Coverage::of(&random_list(o.run.seed, list, world), world));
        }
        println!("{} lists of `oracle {name}`", o.run.lists);
        coverage.show();
    }
    0
}

fn is_comment(line: &str) -> bool {
    line.is_empty() || line.starts_with('#')
}

/// Comments are copied, as `replay` does.
fn trace() -> Result<u64, String> {
    let mut text = String::new();
    io::stdin().read_to_string(&mut text).map_err(|e| e.to_string())?;
    let lines = text.lines().filter(|line| !is_comment(line));
    let events: Vec<Event> =
        lines.map(|l| parse(l).ok_or_else(|| format!("no event: {l}"))).collect::<Result<_, _>>()?;
    let mut traced = imago_trace(&events, None).lines.into_iter();
    for line in text.lines() {
        if is_comment(line) {
            println!("{line}");
        } else {
            print!("{}", traced.next().ok_or_else(|| format!("imago and document 01 depart at: {line}"))?);
        }
    }
    println!("ok");
    Ok(0)
}

fn main() -> ExitCode {
    let mut args = env::args();
    let command = args.nth(1).unwrap_or_default();
    let done = options(args).and_then(|o| match command.as_str() {
        "lists" => lists(&o),
        "parts" => parts(&o),
        "replay" => replay(&o),
        "fixed" => fixed_list(&o),
        "reach" => Ok(reach(&o)),
        "trace" => trace(),
        _ => Err(USAGE.to_owned()),
    });
    match done {
        Ok(0) => ExitCode::SUCCESS,
        Ok(_) => ExitCode::FAILURE,
        Err(text) => {
            eprintln!("{text}");
            ExitCode::FAILURE
        }
    }
}
