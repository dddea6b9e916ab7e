//! Compares the library with the published Rust on the same inputs, and checks laws of the library: `differential
//! short`, `differential long` or `differential self-test`. At the first difference it prints the smallest input found,
//! and at the first false law the input. It then exits with a status that is not 0.

mod case;
mod corner;
mod document;
mod fault;
mod guard;
mod laws;
mod layouts;
mod levels;
mod limit;
mod mistake;
mod open;
mod patterns;
mod plain;
mod rng;
mod run;
mod rust;
mod through;

use corner::Corner;
use fault::Fault;
use rng::Rng;
use run::{Difference, Plan, Run, Subject};
use std::process::ExitCode;
use std::time::{Duration, Instant};

macro_rules! subjects {
    ($($subject:ident)*) => {
        $(mod $subject;)*
        const SUBJECTS: &[&[Subject]] = &[$($subject::SUBJECTS),*];
    };
}

// Each line is a module of this folder with its subjects. To compare another, add its line here.
subjects! {
    image
    morphology
    illumination
    sauvola
    narrow
    grid
    reading
    root
    records
}

const SEED: u64 = 20_261_017;
const SHORT: Plan = Plan { two_levels: 9, three_levels: 5, large: false };
const LONG: Plan = Plan { two_levels: 12, three_levels: 6, large: true };
/// The plan without the exhaustive pictures of a few levels: the boundary cases are left.
const LEAST: Plan = Plan { two_levels: 0, three_levels: 0, large: false };
const USAGE: &str = "differential short | long [--seed N] [--minutes M | --scale K] | self-test";

/// The limit of the random rounds.
enum Rounds {
    Scale(u64),
    Minutes(u64),
}

fn main() -> ExitCode {
    let words: Vec<String> = std::env::args().skip(1).collect();
    let outcome = match words.first().map(String::as_str) {
        Some("short") if words.len() == 1 => self_test().and_then(|()| compared(&SHORT, SEED, Rounds::Scale(1))),
        Some("self-test") if words.len() == 1 => self_test(),
        Some("long") => match long(&words[1..]) {
            Some((seed, rounds)) => self_test().and_then(|()| compared(&LONG, seed, rounds)),
            None => Err(format!("usage: {USAGE}")),
        },
        _ => Err(format!("usage: {USAGE}")),
    };
    match outcome {
        Ok(()) => ExitCode::SUCCESS,
        Err(line) => {
            println!("{line}");
            ExitCode::FAILURE
        }
    }
}

fn long(words: &[String]) -> Option<(u64, Rounds)> {
    let (mut seed, mut rounds) = (SEED, Rounds::Scale(10));
    for pair in words.chunks(2) {
        let [word, number] = pair else {
            return None;
        };
        let number = number.parse().ok()?;
        match word.as_str() {
            "--seed" => seed = number,
            "--scale" => rounds = Rounds::Scale(number),
            "--minutes" => rounds = Rounds::Minutes(number),
            _ => return None,
        }
    }
    Some((seed, rounds))
}

fn subjects() -> impl Iterator<Item = &'static Subject> {
    SUBJECTS.iter().flat_map(|list| list.iter())
}

/// Runs the fixed cases, which have to reach every corner, then rounds of random ones. Then prints the tables, and
/// checks that each subject had the cases that it should have.
fn compared(plan: &Plan, seed: u64, rounds: Rounds) -> Result<(), String> {
    println!("seed {seed}");
    let start = Instant::now();
    let mut run = Run::default();
    let told = |Difference(what)| format!("difference in {what}");
    for subject in subjects() {
        (subject.fixed)(&mut run, plan).map_err(told)?;
    }
    for subject in subjects() {
        at_every_corner(&run, subject, plan)?;
    }
    let broken = |Difference(what)| format!("law {what}");
    let mut laws = laws::Counts::default();
    laws.fixed(plan).map_err(broken)?;
    let mut round = 0;
    loop {
        for subject in subjects() {
            let mut rng = stream(seed, subject.name, round);
            for _ in 0..subject.round {
                (subject.random)(&mut run, &mut rng).map_err(told)?;
            }
        }
        let mut rng = stream(seed, "laws", round);
        for _ in 0..laws::ROUND {
            laws.random(&mut rng).map_err(broken)?;
        }
        round += 1;
        let done = match rounds {
            Rounds::Scale(scale) => round >= scale,
            Rounds::Minutes(minutes) => start.elapsed() >= Duration::from_secs(60 * minutes),
        };
        if done {
            break;
        }
    }
    table(&run);
    corners(&run, plan);
    laws.table()?;
    println!("{round} rounds of random cases, {} s", start.elapsed().as_secs());
    for subject in subjects() {
        let count = run.counts.get(subject.name).cloned().unwrap_or_default();
        if let Some(number) = [0].iter().chain(subject.refuses).find(|number| !count.contains_key(number)) {
            return Err(format!("{} has no case of number {number}", subject.name));
        }
    }
    unplanted(&run).map_or(Ok(()), Err)
}

/// Returns a number that a subject gives and in which the self-test plants no fault, if there is one.
fn unplanted(run: &Run) -> Option<String> {
    let planted: Vec<_> = subjects().flat_map(|s| s.faults().map(move |fault| (s.name, fault))).collect();
    let (name, number) =
        run.numbers.iter().find(|&&(name, number)| !planted.contains(&(name, Fault::Count(number))))?;
    Some(format!("{name} gives {number}, in which no fault is planted"))
}

/// Returns a random stream of its own for each subject and round, so that a new subject does not change other cases.
fn stream(seed: u64, name: &str, round: u64) -> Rng {
    let named = name.bytes().fold(seed, |hash, byte| (hash ^ u64::from(byte)).wrapping_mul(0x100_0000_01b3));
    Rng::new(Rng::new(named ^ round << 40).next())
}

fn table(run: &Run) {
    println!("| call | accepted | refused | refused, by number |\n|---|---|---|---|");
    let (mut all_accepted, mut all_refused) = (0, 0);
    for subject in subjects() {
        let mut count = run.counts.get(subject.name).cloned().unwrap_or_default();
        let accepted = count.remove(&0).unwrap_or(0);
        let refused: u64 = count.values().sum();
        let numbers: Vec<String> = count.iter().map(|(number, cases)| format!("{number}: {cases}")).collect();
        println!("| {} | {accepted} | {refused} | {} |", subject.name, numbers.join(", "));
        all_accepted += accepted;
        all_refused += refused;
    }
    println!("| all | {all_accepted} | {all_refused} | |");
}

/// Checks that a subject had a case at every corner that it declares.
fn at_every_corner(run: &Run, subject: &Subject, plan: &Plan) -> Result<(), String> {
    match run.unreached(subject, plan).first() {
        Some(corner) => Err(format!("{} has no case at the corner {}", subject.name, corner.label())),
        None => Ok(()),
    }
}

/// Prints the cases of each subject at its corners.
fn corners(run: &Run, plan: &Plan) {
    let left_out = if plan.large { "" } else { ", 4096 x 4096 left to the long run" };
    println!("| call | cases at corners{left_out} |\n|---|---|");
    for subject in subjects() {
        let told = |corner: Corner| format!("{}: {}", corner.label(), run.at(subject, corner));
        let list: Vec<String> = subject.corners().filter(|&corner| plan.asks(corner)).map(told).collect();
        if !list.is_empty() {
            println!("| {} | {} |", subject.name, list.join(", "));
        }
    }
}

/// Plants each fault of each subject in our side's answer, and checks that it is reported.
fn self_test() -> Result<(), String> {
    let corners = missed_corners()?;
    let claims = laws::refuted(SEED)?;
    let mut seen = 0;
    for subject in subjects() {
        for fault in subject.faults() {
            let mut run = Run { fault: Some(fault), planted_in: Some(subject.name), ..Run::default() };
            let mut rng = Rng::new(SEED);
            let mut reported = false;
            for _ in 0..20_000 {
                let checked = (subject.random)(&mut run, &mut rng);
                if run.fault.is_none() {
                    reported = checked.is_err();
                    break;
                }
                if let Err(Difference(what)) = checked {
                    return Err(format!("difference in {what}"));
                }
            }
            if !reported {
                return Err(format!("self-test: {fault:?} in {} was not reported", subject.name));
            }
            seen += 1;
        }
    }
    println!("self-test: {seen} planted faults, each reported; {corners} corners, each missed where no case is at it");
    println!("self-test: {claims} false claims beside the laws, each refuted");
    Ok(())
}

/// Returns the corners of a subject that only the long run reaches.
fn left_out(subject: &Subject) -> impl Iterator<Item = Corner> + '_ {
    subject.corners().filter(|&corner| !LEAST.asks(corner))
}

/// Leaves each corner of each subject out of the count, and checks that just this corner is reported as missing. It
/// asks for the corners of the largest picture, as the long run does, and counts one case at each.
fn missed_corners() -> Result<usize, String> {
    let mut run = Run::default();
    for subject in subjects() {
        (subject.fixed)(&mut run, &LEAST).map_err(|Difference(what)| format!("difference in {what}"))?;
    }
    let mut seen = 0;
    for subject in subjects() {
        at_every_corner(&run, subject, &LEAST)?;
        for corner in subject.corners() {
            let mut less = Run { corners: run.corners.clone(), ..Run::default() };
            less.corners.extend(left_out(subject).map(|corner| ((subject.name, corner), 1)));
            less.corners.remove(&(subject.name, corner));
            let plan = Plan { large: true, ..LEAST };
            if less.unreached(subject, &plan) != [corner] || at_every_corner(&less, subject, &plan).is_ok() {
                return Err(format!("self-test: {corner:?} of {} was not missed", subject.name));
            }
            seen += 1;
        }
    }
    undeclared(&run).map_or(Ok(seen), Err)
}

/// Returns a corner that a subject reaches and does not declare, if there is one.
fn undeclared(run: &Run) -> Option<String> {
    let declared: Vec<_> = subjects().flat_map(|s| s.corners().map(move |corner| (s.name, corner))).collect();
    let (name, corner) = run.corners.keys().find(|at| !declared.contains(at))?;
    Some(format!("self-test: {name} reaches {corner:?} and does not declare it"))
}
