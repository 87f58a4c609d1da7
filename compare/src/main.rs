//! Compares the proved library with the reference, call by call, and what the programs print_plate and
//! desk_session print with the reference's texts: document 01's worked examples that aren't marked
//! (P), examples of document 02 (a) to (e), and thousands of made-up cases, from a fixed seed and,
//! beside them, from a fresh one. A difference ends its seed's cases, and is shown with the bytes in
//! hand, the seeds, and exit status 1.

#![deny(unsafe_code)]

mod cases;
mod conformance;
mod damage;
mod lent;
mod library;
mod parts;
mod programs;
mod ranks;
mod report;
mod scripts;
mod sheets;
mod side_by_side;

use cases::{greatest_sum, sheet_kept, wrong_lists, CASES};
use parts::{Part, PARTS};
use reference::random::Random;
use report::Report;
use side_by_side::Compared;
use std::io::{self, Read, Write};
use std::panic::{catch_unwind, AssertUnwindSafe};
use std::process::ExitCode;
use std::thread;
use std::time::{Instant, SystemTime, UNIX_EPOCH};

const USAGE: &str = "usage:
  compare [--long] [--seed SEED]    all parts; --long has ten times as many cases, and --seed
                                    gives the second seed, which is a fresh one otherwise
  compare repeat PART SEED          one case again
  compare write-conformance SEED    writes an input of the program conformance
  compare reference-conformance     what conformance must print for the input on stdin";

/// The first seed of every run.
const FIXED_SEED: u64 = 1;

fn main() -> ExitCode {
    let arguments: Vec<String> = std::env::args().skip(1).collect();
    let arguments: Vec<&str> = arguments.iter().map(String::as_str).collect();
    let done = match arguments[..] {
        [] => fresh_seed().and_then(|seed| run_all(seed, false)),
        ["--long"] => fresh_seed().and_then(|seed| run_all(seed, true)),
        ["--seed", seed] => number(seed).and_then(|seed| run_all(seed, false)),
        ["--long", "--seed", seed] | ["--seed", seed, "--long"] => {
            number(seed).and_then(|seed| run_all(seed, true))
        }
        ["repeat", part, seed] => number(seed).and_then(|seed| repeat(part, seed)),
        ["write-conformance", seed] => number(seed).and_then(write_conformance),
        ["reference-conformance"] => reference_conformance(),
        _ => Err(USAGE.to_string()),
    };
    match done {
        Ok(()) => ExitCode::SUCCESS,
        Err(message) => {
            eprintln!("{message}");
            ExitCode::FAILURE
        }
    }
}

fn number(text: &str) -> Result<u64, String> {
    text.parse().map_err(|_| format!("not a number: {text}"))
}

/// A seed from the clock, another one for each run.
fn fresh_seed() -> Result<u64, String> {
    let time = SystemTime::now().duration_since(UNIX_EPOCH);
    let time = time.map_err(|error| error.to_string())?;
    Ok(Random::new(time.as_nanos() as u64).next_number())
}

/// All cases of the documents, then the made-up ones of the fixed seed and of this one. A long run
/// has ten times as many.
fn run_all(seed: u64, long: bool) -> Result<(), String> {
    programs::all_there()?;
    let start = Instant::now();
    let (times, arguments) = match long {
        true => (10, format!("--long --seed {seed}")),
        false => (1, format!("--seed {seed}")),
    };
    println!(
        "the proved library and the programs beside the reference: \
         the fixed seed {FIXED_SEED}, and seed {seed}"
    );
    let mut report = Report::default();
    let done =
        run_document(&mut report).and_then(|()| run_seeds(&mut report, [FIXED_SEED, seed], times));
    done.map_err(|message| {
        let again = format!("the whole run again with: compare/run {arguments}");
        format!("{message}\nseeds {FIXED_SEED} and {seed}; {again}")
    })?;
    println!("\n{}", report.tables());
    let (cases, calls, time) = (report.cases(), report.calls(), start.elapsed());
    println!("all the same: {cases} cases with {calls} calls, in {time:.1?}");
    Ok(())
}

/// A case that runs calls of its own.
type RunCase = fn(&mut Report) -> Compared;

/// The documents' cases with calls of their own.
const OTHER_CASES: [(&str, RunCase); 3] = [
    ("a load with 61 keeps the sheet", sheet_kept),
    ("wrong rank lists", wrong_lists),
    ("the greatest sum", greatest_sum),
];

fn run_document(report: &mut Report) -> Compared {
    for case in &CASES {
        run_case(report, |report| case.run(report))
            .map_err(|message| failure(report, &message, case.name))?;
    }
    for (name, run) in OTHER_CASES {
        run_case(report, run).map_err(|message| failure(report, &message, name))?;
    }
    let cases = CASES.len() + OTHER_CASES.len();
    println!("{:<22}{cases:>9} cases", "documents 01 and 02");
    Ok(())
}

/// The made-up cases of both seeds, side by side.
fn run_seeds(total: &mut Report, seeds: [u64; 2], times: u64) -> Compared {
    let ended = thread::scope(|scope| {
        let running = seeds.map(|seed| scope.spawn(move || run_parts(seed, times)));
        running.map(|run| run.join())
    });
    for run in ended {
        let (report, said) = run.map_err(|_| "compare: FAILED by a panic".to_string())??;
        print!("{said}");
        total.add(&report);
    }
    Ok(())
}

/// The made-up cases of a seed: what was seen in them, and a line for each part. What must be seen
/// must be seen in them alone.
fn run_parts(seed: u64, times: u64) -> Result<(Report, String), String> {
    let mut said = format!("seed {seed}\n");
    let mut report = Report::default();
    for (part, index) in PARTS.iter().zip(1..) {
        // Each part has its own seeds, whatever the other parts use.
        let mut seeds = Random::new(seed.wrapping_mul(64).wrapping_add(index));
        let (cases, before) = (part.cases * times, Instant::now());
        for _ in 0..cases {
            run_seed(&mut report, part, seeds.next_number())?;
        }
        let time = before.elapsed();
        said += &format!("  {:<20}{cases:>9} cases {time:>8.1?}\n", part.name);
    }
    let missing = report.missing();
    match missing.is_empty() {
        true => Ok((report, said)),
        false => Err(format!("compare: FAILED\n{}", missing.join("\n"))),
    }
}

/// One case of a part.
fn run_seed(report: &mut Report, part: &Part, seed: u64) -> Compared {
    run_case(report, |report| (part.run)(&mut Random::new(seed), report)).map_err(|message| {
        let again = format!(
            "{}, seed {seed}; again with: compare/run repeat {} {seed}",
            part.name, part.name
        );
        failure(report, &message, &again)
    })
}

/// Runs a case. A panic (the wrapper's, on an answer that the header rules out) is a failure too.
fn run_case(report: &mut Report, case: impl FnOnce(&mut Report) -> Compared) -> Compared {
    report.new_case();
    catch_unwind(AssertUnwindSafe(|| case(report))).unwrap_or_else(|panic| {
        let text = panic.downcast_ref::<String>().map(String::as_str);
        let text = text.or(panic.downcast_ref::<&str>().copied());
        Err(format!("a panic: {}", text.unwrap_or("without a text")))
    })
}

/// The message of a failure: the bytes of the case, what differs, and which case it is.
fn failure(report: &Report, message: &str, case: &str) -> String {
    let held = report.held();
    let bytes = "the bytes of the failing case, its last calls last:";
    format!("{bytes}\n{held}compare: FAILED\n{message}\ncase: {case}")
}

fn repeat(name: &str, seed: u64) -> Result<(), String> {
    let part = PARTS.iter().find(|part| part.name == name);
    let part = part.ok_or_else(|| format!("no part is named {name}"))?;
    run_seed(&mut Report::default(), part, seed)?;
    println!("{name}, seed {seed}: all the same");
    Ok(())
}

fn write_conformance(seed: u64) -> Result<(), String> {
    let input = conformance::input(seed)?;
    io::stdout()
        .write_all(&input)
        .map_err(|error| error.to_string())
}

fn reference_conformance() -> Result<(), String> {
    let mut input = Vec::new();
    io::stdin()
        .read_to_end(&mut input)
        .map_err(|error| error.to_string())?;
    print!("{}", conformance::lines(&input));
    Ok(())
}
