//! An independent implementation of the bench's verdict, written from docs/, and a comparison with the proved program.
//!
//!   reference verdict                       level digits, a newline and a listing on standard input, as marks takes them
//!   reference clear LEVELS MODEL FILE       the same slip for level digits, a model's name and a file
//!   reference compare MARKS SECONDS [SEED]  random cases through the program MARKS; fails at the first difference

mod clearing;
mod listing;
mod random;
mod verdict;

use std::collections::BTreeMap;
use std::io::{Read, Write};
use std::process::{Command, ExitCode, Stdio};
use std::time::{Duration, Instant, SystemTime, UNIX_EPOCH};

/// The verdict on an input: digits up to the first newline, then a listing; the first 65536 bytes alone.
fn judge(input: &[u8]) -> String {
    let input = &input[..input.len().min(65536)];
    match input.iter().position(|&b| b == b'\n') {
        Some(end) => verdict::verdict(&input[..end], &input[end + 1..]),
        None => verdict::verdict(input, b""),
    }
}

fn ask(program: &str, input: &[u8]) -> std::io::Result<String> {
    let mut child = Command::new(program).stdin(Stdio::piped()).stdout(Stdio::piped()).spawn()?;
    if let Some(mut stdin) = child.stdin.take() {
        stdin.write_all(input)?;
    }
    let output = child.wait_with_output()?;
    Ok(String::from_utf8_lossy(&output.stdout).into_owned())
}

fn case(random: &mut random::Random) -> Vec<u8> {
    let routine = match random.below(40) {
        0 => random::nested(15 + random.below(3)),
        _ => random::routine(random),
    };
    let mut input = random::levels(random, &routine);
    input.push(b'\n');
    input.extend(random::listing(random, &routine));
    input
}

/// What a slip is, for the count: its word, and of a refusal its number.
fn kind(slip: &str) -> String {
    let words: Vec<&str> = slip.split_whitespace().take(2).collect();
    match words[..] {
        ["REFUSED", number] => format!("REFUSED {number}"),
        [word, _] => word.to_string(),
        _ => "?".to_string(),
    }
}

fn compare(program: &str, seconds: u64, seed: u64) -> std::io::Result<bool> {
    let mut random = random::Random::new(seed);
    let mut counts: BTreeMap<String, u32> = BTreeMap::new();
    let mut letters: BTreeMap<char, u32> = BTreeMap::new();
    let start = Instant::now();
    let mut cases = 0u32;
    while start.elapsed() < Duration::from_secs(seconds) {
        let input = case(&mut random);
        let expected = judge(&input);
        let got = ask(program, &input)?;
        if got != expected {
            std::fs::write("difference.txt", &input)?;
            println!("seed {seed}, case {cases}: {program} says {got:?}, the reference {expected:?}; the input is in difference.txt");
            return Ok(false);
        }
        *counts.entry(kind(&expected)).or_default() += 1;
        if let Some(end) = input.iter().position(|&b| b == b'\n') {
            if let Ok(routine) = listing::load(&input[end + 1..]) {
                for node in &routine.nodes {
                    *letters.entry(node.letter as char).or_default() += 1;
                }
            }
        }
        cases += 1;
    }
    println!("reference: {cases} cases compared, 0 differ, seed {seed}");
    println!("by answer: {counts:?}");
    println!("nodes of what loaded: {letters:?}");
    Ok(true)
}

fn main() -> ExitCode {
    let words: Vec<String> = std::env::args().skip(1).collect();
    let words: Vec<&str> = words.iter().map(String::as_str).collect();
    let done = match words[..] {
        ["verdict"] => {
            let mut input = Vec::new();
            std::io::stdin().read_to_end(&mut input).map(|_| {
                print!("{}", judge(&input));
                true
            })
        }
        ["clear", levels, name, file] => match verdict::model(name) {
            Some((model, timed)) => std::fs::read(file).map(|listing| {
                print!("{}", verdict::judge(levels.as_bytes(), &listing, model, timed));
                true
            }),
            None => {
                eprintln!("reference: there is no model '{name}'");
                Ok(false)
            }
        },
        ["compare", program, seconds, ref rest @ ..] => {
            let fresh = SystemTime::now().duration_since(UNIX_EPOCH).map_or(1, |d| d.as_nanos() as u64);
            let seed = rest.first().and_then(|word| word.parse().ok()).unwrap_or(fresh);
            compare(program, seconds.parse().unwrap_or(10), seed)
        }
        _ => {
            eprintln!("usage: reference verdict | reference clear LEVELS MODEL FILE | reference compare MARKS SECONDS [SEED]");
            Ok(false)
        }
    };
    match done {
        Ok(true) => ExitCode::SUCCESS,
        Ok(false) => ExitCode::FAILURE,
        Err(error) => {
            eprintln!("reference: {error}");
            ExitCode::FAILURE
        }
    }
}
