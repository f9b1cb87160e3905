//! Times load, clear, verdict and advance: the proved library and the reference in one run, on the same listings.
//!
//!   speed [FILE]    prints the table, and writes it to FILE

#[allow(dead_code)]
#[path = "../../reference/src/clearing.rs"]
mod clearing;
#[allow(dead_code)]
#[path = "../../reference/src/levels.rs"]
mod levels;
#[allow(dead_code)]
#[path = "../../reference/src/listing.rs"]
mod listing;
#[allow(dead_code)]
#[path = "../../reference/src/models.rs"]
mod models;
mod proved;
#[allow(dead_code)]
#[path = "../../reference/src/running.rs"]
mod running;
mod samples;
#[allow(dead_code)]
#[path = "../../reference/src/verdict.rs"]
mod verdict;

use samples::Sample;
use std::fmt::Write as _;
use std::hint::black_box;
use std::time::{Duration, Instant};

/// Steps of one timed advance.
const STEPS: usize = 1 << 20;

/// The seconds of one call: the best of several rounds, each long enough to be read off the clock.
fn seconds(mut call: impl FnMut()) -> f64 {
    let mut turns = 1;
    let mut best = f64::INFINITY;
    let mut rounds = 0;
    while rounds < 5 {
        let start = Instant::now();
        for _ in 0..turns {
            call();
        }
        let took = start.elapsed();
        if took < Duration::from_millis(40) {
            turns *= 2;
            continue;
        }
        best = best.min(took.as_secs_f64() / f64::from(turns));
        rounds += 1;
    }
    best
}

/// The time of a call of the proved library and of the reference.
struct Pair {
    proved: f64,
    reference: f64,
}

impl Pair {
    fn cells(&self) -> String {
        let ratio = self.reference / self.proved;
        format!("{:.2} | {:.2} | {ratio:.1}", self.proved * 1e6, self.reference * 1e6)
    }
}

fn load_times(sample: &Sample) -> Pair {
    let bytes = &sample.bytes[..];
    Pair {
        proved: seconds(|| assert_eq!(proved::load(black_box(bytes)), 0)),
        reference: seconds(|| assert!(listing::load(black_box(bytes)).is_ok())),
    }
}

fn clear_times(sample: &Sample) -> Pair {
    let (digits, bytes) = (&sample.digits[..], &sample.bytes[..]);
    Pair {
        proved: seconds(|| {
            black_box(proved::clear(black_box(digits), black_box(bytes)));
        }),
        reference: seconds(|| {
            black_box(verdict::verdict(black_box(digits), black_box(bytes)));
        }),
    }
}

fn verdict_times(sample: &Sample) -> Pair {
    let (digits, bytes) = (&sample.digits[..], &sample.bytes[..]);
    assert_eq!(proved::verdict_text(digits, bytes), verdict::verdict(digits, bytes).text(), "{}", sample.name);
    Pair {
        proved: seconds(|| {
            black_box(proved::slip(black_box(digits), black_box(bytes)));
        }),
        reference: seconds(|| {
            black_box(verdict::verdict(black_box(digits), black_box(bytes)).text());
        }),
    }
}

/// The steps of the reference on a listing with all public.
fn reference_steps(bytes: &[u8], places: usize) -> usize {
    let Ok(routine) = listing::load(bytes) else { return 0 };
    let model = models::Model { base: models::Base::Baseline, timed: false };
    let listener = levels::Level::default();
    let table = vec![levels::Level::default(); routine.scalars as usize + routine.arrays.len()];
    let clearing::Outcome::Cleared { reach } = clearing::examine(&routine, model, &table, &listener) else { return 0 };
    let cleared = running::Cleared { routine: &routine, model, table: &table, listener: &listener, reach };
    let mut run = running::Run::start(cleared, running::Memory::zeros());
    match run.make(running::Call::Advance(places as u32)) {
        running::Answer::Advanced { lines, .. } => lines.len(),
        _ => 0,
    }
}

/// The seconds of one step, in a loop that does not end: those of many steps less those of none.
fn step_times(bytes: &[u8]) -> Pair {
    let mut lines = vec![proved::Line::default(); STEPS];
    assert_eq!(proved::advance(bytes, &mut lines), STEPS);
    assert_eq!(reference_steps(bytes, STEPS), STEPS);
    let mut proved_at = |places: usize| seconds(|| assert_eq!(proved::advance(black_box(bytes), &mut lines[..places]), places));
    let proved = (proved_at(STEPS) - proved_at(0)) / STEPS as f64;
    let reference_at = |places: usize| seconds(|| assert_eq!(reference_steps(black_box(bytes), places), places));
    Pair { proved, reference: (reference_at(STEPS) - reference_at(0)) / STEPS as f64 }
}

fn goal(report: &mut String, what: &str, holds: bool) {
    let _ = writeln!(report, "- {what}: {}", if holds { "met" } else { "NOT MET" });
}

fn report() -> String {
    let samples = samples::all();
    let mut text = String::from("| listing | nodes | load | ref. | ratio | load and clear | ref. | ratio | verdict | ref. | ratio |\n|---|---|---|---|---|---|---|---|---|---|---|\n");
    let mut verdicts = Vec::new();
    for sample in &samples {
        let (load, clear, slip) = (load_times(sample), clear_times(sample), verdict_times(sample));
        let _ = writeln!(text, "| {} | {} | {} | {} | {} |", sample.name, sample.nodes, load.cells(), clear.cells(), slip.cells());
        verdicts.push(slip);
    }
    let step = step_times(&samples::endless());
    let _ = writeln!(text, "\nTimes are in microseconds, each the best of five rounds; ratio is the reference's time by the proved library's.\n");
    let _ = writeln!(
        text,
        "Advance makes {:.1} million steps a second, the reference {:.1} million.\n",
        1e-6 / step.proved,
        1e-6 / step.reference
    );
    let time_of = |name: &str| samples.iter().zip(&verdicts).find(|(sample, _)| sample.name == name).map_or(f64::NAN, |(_, pair)| pair.proved);
    let straight = time_of(samples::STRAIGHT);
    let worst = samples.iter().zip(&verdicts).filter(|(sample, _)| sample.nodes == 128).map(|(_, pair)| pair.proved).fold(0.0, f64::max);
    goal(&mut text, "the verdict is at least as fast as the reference's on every row", verdicts.iter().all(|pair| pair.proved <= pair.reference));
    goal(&mut text, &format!("the slowest listing of 128 nodes takes at most 20 times as long as a straight one ({:.1} times)", worst / straight), worst <= 20.0 * straight);
    goal(&mut text, &format!("more than 20000 verdicts a second on the largest straight listing ({:.0})", 1.0 / straight), straight < 1.0 / 20000.0);
    text
}

fn main() -> std::io::Result<()> {
    let text = report();
    print!("{text}");
    if let Some(file) = std::env::args().nth(1) {
        let head = "# How fast it is\n\nMade by `make bench`, which times the static library and the reference (`tools/reference`, which is written to be plain and not to be fast) in one run, on one core, both\nbuilt for release. No promise speaks of time: these are measurements of one machine. The listings are made in `tools/speed/src/samples.rs`.\n\n";
        std::fs::write(file, format!("{head}{text}"))?;
    }
    Ok(())
}
