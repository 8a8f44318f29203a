//! The second program: documents 01 and 02 once more, by other means, to be held against the first.

mod bench;
mod brute;
mod compare;
mod desk;
mod flow;
mod halving;
mod hex;
mod inputs;
mod model;
mod number;
mod planner;
mod random;
mod refusal;
mod run;
mod sheets;
mod shelf;
#[cfg(test)]
mod straight;
mod unit;
mod vectors;

use std::io::{self, BufReader, BufWriter, Read, Write};
use std::process::ExitCode;

const USAGE: &str = "usage: second bench | shelf | desk | vectors FILE | stream FILE
       second input bench|shelf|desk SEED INDEX
       second compare bench|shelf|desk COUNT SEED PROGRAM [ARGUMENT...]";

fn main() -> ExitCode {
    let words: Vec<String> = std::env::args().skip(1).collect();
    let plain: Vec<&str> = words.iter().map(|word| word.as_str()).collect();
    let outcome = match plain[..] {
        ["bench"] => run_bench(),
        ["shelf"] => run_shelf(),
        ["desk"] => run_desk(),
        ["vectors", file] => run_vectors(file),
        ["stream", file] => run_stream(file),
        ["input", program, seed, index] => run_input(program, seed, index),
        ["compare", program, count, seed, _, ..] => run_compare(program, count, seed, &words[4..]),
        _ => Err(USAGE.to_string()),
    };
    match outcome {
        Ok(()) => ExitCode::SUCCESS,
        Err(message) => {
            println!("{message}");
            ExitCode::FAILURE
        }
    }
}

fn run_bench() -> Result<(), String> {
    let mut input = Vec::new();
    let _ = io::stdin().read_to_end(&mut input);
    println!("{}", bench::line(&input));
    Ok(())
}

fn run_shelf() -> Result<(), String> {
    shelf::run(
        &mut BufReader::new(io::stdin()),
        &mut BufWriter::new(io::stdout()),
    );
    Ok(())
}

fn run_desk() -> Result<(), String> {
    desk::run(
        &mut BufReader::new(io::stdin()),
        &mut BufWriter::new(io::stdout()),
    );
    Ok(())
}

fn run_vectors(file: &str) -> Result<(), String> {
    let text = std::fs::read_to_string(file).map_err(|error| format!("{file}: {error}"))?;
    println!("{}", vectors::run(&text)?);
    Ok(())
}

/// Writes the bytes of a run of the shelf, if this program answers it with the run's lines.
fn run_stream(file: &str) -> Result<(), String> {
    let text = std::fs::read_to_string(file).map_err(|error| format!("{file}: {error}"))?;
    io::stdout()
        .write_all(&run::stream(&text)?)
        .map_err(|error| error.to_string())
}

fn parse(word: &str) -> Result<u64, String> {
    word.parse().map_err(|_| format!("not a number: {word}"))
}

/// Writes one generated input as it is.
fn run_input(program: &str, seed: &str, index: &str) -> Result<(), String> {
    let (seed, index) = (parse(seed)?, parse(index)?);
    let bytes = match program {
        "bench" => compare::bench_input(&inputs::bench::systematic(), seed, index),
        "shelf" => compare::shelf_stream(&inputs::shelf::systematic(), seed, index).concat(),
        "desk" => {
            (compare::desk_line(&inputs::desk::systematic(), seed, index) + "\n").into_bytes()
        }
        _ => return Err(USAGE.to_string()),
    };
    io::stdout()
        .write_all(&bytes)
        .map_err(|error| error.to_string())
}

fn run_compare(program: &str, count: &str, seed: &str, words: &[String]) -> Result<(), String> {
    let (count, seed) = (parse(count)?, parse(seed)?);
    let other = compare::Other { words };
    let last = match program {
        "bench" => compare::bench(&other, count, seed)?,
        "shelf" => compare::shelf(&other, count, seed)?,
        "desk" => compare::desk(&other, count, seed)?,
        _ => return Err(USAGE.to_string()),
    };
    println!("{last}");
    Ok(())
}
