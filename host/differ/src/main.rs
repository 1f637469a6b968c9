//! The proved library against the second implementation.
//!
//! `differ` runs the named cases, then four million random events and a hundred
//! thousand random rows by fixed seeds;
//! `differ --cases` and `differ --seeds FIRST LAST` run a part of that;
//! `differ --seed S --events N` runs random events and rows alone, by any seed;
//! `differ --replay PROGRAM` compares the replay program's lines.
//! MFP_EMULATOR names what other processes run under, where the machine needs it.
//! The last line is `N passed, M failed`; any failure is a non-zero status.
#![deny(warnings)]

mod call;
mod cases_hard;
mod cases_paper;
mod cases_refusals;
mod cases_row;
mod ffi;
mod guard;
mod program;
mod random;
mod random_rows;
mod rig;
mod row;
mod shrink;
mod trial;

use call::Lender;
use guard::Side;
use random::Reached;
use std::process::ExitCode;

/// The seeds of a run without arguments, and the events of each.
const SEEDS: std::ops::RangeInclusive<u64> = 1..=10;
const EVENTS: u64 = 400_000;
/// So many events to a random row.
const EVENTS_A_ROW: u64 = 40;
/// With so many events a run has to reach everything at least once.
const ENOUGH_TO_REACH_ALL: u64 = 20_000;

/// The named cases that ran.
#[derive(Default)]
struct Tally {
    passed: u64,
    failed: u64,
    checks: u64,
}

impl Tally {
    fn case(&mut self, name: &str, run: impl FnOnce() -> Result<u64, String>) {
        guard::now_running(name);
        match run() {
            Ok(checks) => {
                self.passed += 1;
                self.checks += checks;
                println!("ok   {name}");
            }
            Err(wrong) => {
                self.failed += 1;
                println!("FAIL {name}\n{wrong}");
            }
        }
    }
}

fn main() -> ExitCode {
    guard::report_faults();
    let arguments: Vec<String> = std::env::args().skip(1).collect();
    let words: Vec<&str> = arguments.iter().map(String::as_str).collect();
    let mut tally = Tally::default();
    match words.as_slice() {
        [] => {
            cases(&mut tally);
            random_events(&mut tally, SEEDS, EVENTS);
        }
        ["--cases"] => cases(&mut tally),
        ["--seeds", first, last] => {
            let (Ok(first), Ok(last)) = (first.parse(), last.parse()) else {
                return usage();
            };
            random_events(&mut tally, first..=last, EVENTS);
        }
        ["--seed", seed, "--events", events] => {
            let (Ok(seed), Ok(events)) = (seed.parse(), events.parse()) else {
                return usage();
            };
            random_events(&mut tally, seed..=seed, events);
        }
        ["--replay", program] => program::replays(|name, run| tally.case(name, run), program),
        ["--touch", side] => touch(side),
        _ => return usage(),
    }
    println!("{} checks in all", tally.checks);
    println!("{} passed, {} failed", tally.passed, tally.failed);
    ExitCode::from(u8::from(tally.failed > 0))
}

fn usage() -> ExitCode {
    eprintln!(
        "usage: differ [--cases | --seeds FIRST LAST | --seed S --events N | --replay PROGRAM]"
    );
    ExitCode::from(2)
}

fn cases(tally: &mut Tally) {
    let mut lender = Lender::new();
    tally.case("a byte outside on the left is noticed", || {
        is_noticed("left")
    });
    tally.case("a byte outside on the right is noticed", || {
        is_noticed("right")
    });
    tally.case("the sample tape and its ten lines", || {
        cases_paper::sample(&mut lender)
    });
    for (name, case) in cases_paper::CASES.iter().chain(cases_hard::CASES) {
        tally.case(name, || {
            let mut rig = rig::Rig::new(&mut lender);
            case(&mut rig);
            rig.finish()
        });
    }
    for (name, case) in cases_refusals::CASES.iter().chain(cases_row::CASES) {
        tally.case(name, || trial::run(&mut lender, *case));
    }
}

/// Random events and rows by each seed; then everything must have been reached.
fn random_events(tally: &mut Tally, seeds: std::ops::RangeInclusive<u64>, events: u64) {
    let mut lender = Lender::new();
    let mut reached = Reached::default();
    for seed in seeds {
        tally.case(&format!("{events} random events, seed {seed}"), || {
            random::run(&mut lender, seed, events, &mut reached)
        });
        let rows = events / EVENTS_A_ROW;
        tally.case(&format!("{rows} random rows, seed {seed}"), || {
            random_rows::run(&mut lender, seed, rows, &mut reached.rows)
        });
    }
    for (name, count) in reached.named() {
        println!("     {name}: {count}");
    }
    if reached.events >= ENOUGH_TO_REACH_ALL {
        tally.case("everything was reached", || all_reached(&reached));
    }
    println!("{} random events in accepted tapes", reached.events);
}

fn all_reached(reached: &Reached) -> Result<u64, String> {
    let named = reached.named();
    match named.iter().find(|(_, count)| *count == 0) {
        Some((name, _)) => Err(format!("never reached: {name}")),
        None => Ok(named.len() as u64),
    }
}

/// A second process touches a byte outside and must end by it.
fn is_noticed(side: &str) -> Result<u64, String> {
    let own = std::env::current_exe().map_err(|error| error.to_string())?;
    let output = program::process(own).args(["--touch", side]).output();
    let status = output.map_err(|error| error.to_string())?.status;
    if status.code() == Some(guard::FAULT_STATUS) {
        Ok(1)
    } else {
        Err(format!("the touching process ended with {status}"))
    }
}

fn touch(side: &str) {
    let side = if side == "left" {
        Side::Left
    } else {
        Side::Right
    };
    guard::touch_outside(side, 33);
}
