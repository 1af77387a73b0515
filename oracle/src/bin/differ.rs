//! Compares a program with the oracle and with the tally of demand 3.
//!
//! ```text
//! differ [--calls N] [--seed S]   random lists; the linked library is tested,
//!                                 or the oracle itself if none is linked
//! differ --self ...               the oracle itself is tested, by the tally alone
//! differ --variants ...           every wrong variant must be told apart; the seed picks
//!                                 the bytes of FoldWrongAt and FoldWrongAtWhenComparing
//! differ --replay FILE            one list, in the form of src/script.rs
//!
//! --before        an earlier archive takes the oracle's place: number, reply buffer and
//!                 table of each call must be what it gives; with the feature `before`.
//!                 Random lists are then on tables for weeks of ten bits alone
//! --out FILE      where a list that failed is written too
//! --trace FILE    the list being run is written before each of its steps
//! ```
//!
//! Exits with 1 if a difference is found, a variant is not told apart, or a
//! run of 200,000 calls or more has missed a number, an error, a case or a mark.

use oracle::compare;
use oracle::generate::Widths;
use oracle::runs::{self, Trace};
use oracle::script;
use oracle::server::{Oracle, Server};
use oracle::variants;
use std::fs::{self, File};
use std::process::ExitCode;
use std::time::{Instant, SystemTime, UNIX_EPOCH};

const ENOUGH: u64 = 200_000;

struct Asked {
    calls: u64,
    seed: u64,
    own: bool,
    before: bool,
    variants: bool,
    replay: Option<String>,
    out: Option<String>,
    trace: Option<String>,
}

fn asked() -> Result<Asked, String> {
    let now = SystemTime::now().duration_since(UNIX_EPOCH);
    let mut asked = Asked {
        calls: ENOUGH,
        seed: now.map_or(1, |since| since.as_nanos() as u64),
        own: false,
        before: false,
        variants: false,
        replay: None,
        out: None,
        trace: None,
    };
    let mut words = std::env::args().skip(1);
    while let Some(word) = words.next() {
        let mut value = || words.next().ok_or(format!("{word} needs a value"));
        let number = |text: String| text.parse().map_err(|_| format!("no number: {text}"));
        match word.as_str() {
            "--calls" => asked.calls = number(value()?)?,
            "--seed" => asked.seed = number(value()?)?,
            "--self" => asked.own = true,
            "--before" => asked.before = true,
            "--variants" => asked.variants = true,
            "--replay" => asked.replay = Some(value()?),
            "--out" => asked.out = Some(value()?),
            "--trace" => asked.trace = Some(value()?),
            _ => return Err(format!("no such option: {word}")),
        }
    }
    Ok(asked)
}

/// The program under test and its name.
fn tested(own: bool) -> (Box<dyn Server>, &'static str) {
    #[cfg(feature = "linked")]
    if !own {
        return (Box::new(oracle::server::Linked), "the linked library");
    }
    let _ = own;
    (Box::new(Oracle), "the oracle itself")
}

/// What it is compared with beside the tally, and its name.
fn reference(before: bool) -> Result<(Box<dyn Server>, &'static str), String> {
    if !before {
        return Ok((Box::new(Oracle), "oracle"));
    }
    #[cfg(feature = "before")]
    return Ok((Box::new(oracle::server::Before), "earlier archive"));
    #[cfg(not(feature = "before"))]
    Err("--before: built without the feature `before`".into())
}

/// The tables of random lists. An earlier archive does not know those for weeks of thirteen bits: it
/// refuses their lengths with 1.
fn widths(before: bool) -> Widths {
    if before {
        Widths::TenBits
    } else {
        Widths::Both
    }
}

fn compared(asked: Asked) -> Result<bool, String> {
    let (server, name) = tested(asked.own);
    let (reference, by) = reference(asked.before)?;
    println!("seed {}: {name} by {by} and tally", asked.seed);
    let trace = match &asked.trace {
        Some(file) => Some(Trace(File::create(file).map_err(|error| format!("{file}: {error}"))?)),
        None => None,
    };
    let start = Instant::now();
    let widths = widths(asked.before);
    let (coverage, failure) =
        runs::random_lists(&*reference, &*server, widths, asked.seed, asked.calls, trace);
    println!("{} calls in {:.1} s\n{coverage}", coverage.calls, start.elapsed().as_secs_f32());
    if let Some(failure) = failure {
        println!("DIFFERENCE: {}", failure.wrong);
        let script = failure.script(&*reference, &*server);
        println!("---- shortened list ----\n{script}---- end of list ----");
        if let Some(file) = asked.out {
            fs::write(&file, &script).map_err(|error| format!("{file}: {error}"))?;
        }
        return Ok(false);
    }
    let missing = coverage.missing(widths);
    if coverage.calls >= ENOUGH && !missing.is_empty() {
        println!("NEVER MET: {}", missing.join(", "));
        return Ok(false);
    }
    println!("no difference");
    Ok(true)
}

/// For each variant, the calls it took by reference and tally, and by the tally alone.
fn told_apart(asked: Asked) -> Result<bool, String> {
    let (reference, by) = reference(asked.before)?;
    println!("seed {}: wrong variants by {by} and tally, and by the tally alone", asked.seed);
    let widths = widths(asked.before);
    let all = variants::all(asked.seed, widths);
    let mut missed = 0;
    for (name, server) in &all {
        let server = server.as_ref();
        let calls = |reference: &dyn Server| {
            let (coverage, failure) =
                runs::random_lists(reference, server, widths, asked.seed, asked.calls, None);
            failure.map(|failure| (coverage.calls, failure.wrong))
        };
        let alone = calls(server).map_or("-".into(), |(calls, _)| calls.to_string());
        match calls(&*reference) {
            Some((calls, wrong)) => {
                let wrong: String = wrong.chars().take(60).collect();
                println!("{calls:8}{alone:>8}  {name}: {wrong}");
            }
            None => {
                missed += 1;
                println!("       -{alone:>8}  {name}: NOT TOLD APART");
            }
        }
    }
    println!("{} of {} variants told apart", all.len() - missed, all.len());
    Ok(missed == 0)
}

fn replayed(file: &str, asked: &Asked) -> Result<bool, String> {
    let text = fs::read_to_string(file).map_err(|error| format!("{file}: {error}"))?;
    let steps = script::read(&text).map_err(|wrong| format!("{file}: {wrong}"))?;
    let (server, name) = tested(asked.own);
    let (reference, by) = reference(asked.before)?;
    println!("{name} by {by} and tally, {} steps", steps.len());
    Ok(match compare::first_fault(&*reference, &*server, &steps) {
        Some((at, wrong)) => {
            println!("DIFFERENCE in step {}: {wrong}\n{}", at + 1, steps[at]);
            false
        }
        None => {
            println!("no difference");
            true
        }
    })
}

fn main() -> ExitCode {
    let outcome = asked().and_then(|asked| match &asked.replay {
        Some(file) => replayed(file, &asked),
        None if asked.variants => told_apart(asked),
        None => compared(asked),
    });
    match outcome {
        Ok(true) => ExitCode::SUCCESS,
        Ok(false) => ExitCode::FAILURE,
        Err(wrong) => {
            eprintln!("{wrong}");
            ExitCode::from(2)
        }
    }
}
