//! The verdict slip (docs/FORMATS.md).

use crate::clearing::{first_leak, Model};
use crate::listing::load;

fn slip(word: &str, numbers: [u32; 4]) -> String {
    let [a, b, c, d] = numbers;
    format!("{word:<8}{a:>11}{b:>11}{c:>11}{d:>11}\n")
}

/// The verdict of the bench: the baseline.
pub fn verdict(levels: &[u8], listing: &[u8]) -> String {
    judge(levels, listing, Model::Baseline, false)
}

/// The model of a name as `bench clear` takes it, and whether the time-variable layer is over it.
pub fn model(name: &str) -> Option<(Model, bool)> {
    let (base, timed) = match name.strip_prefix("tv+") {
        Some(base) => (base, true),
        None => (name, false),
    };
    let model = match base {
        "pc" => Model::ProgramCounter,
        "baseline" => Model::Baseline,
        "line16" => Model::CacheLine(16),
        "line8" => Model::CacheLine(8),
        _ => return None,
    };
    Some((model, timed))
}

/// The slip on level digits and a listing under a model, for a public listener.
pub fn judge(levels: &[u8], listing: &[u8], model: Model, timed: bool) -> String {
    if let Some(place) = levels.iter().position(|b| !b"01".contains(b)) {
        return slip("REFUSED", [17, u32::try_from(place).unwrap_or(u32::MAX), 0, 0]);
    }
    let routine = match load(listing) {
        Ok(routine) => routine,
        Err(refusal) => return slip("REFUSED", [refusal.number, refusal.line, refusal.field, 0]),
    };
    if levels.len() != routine.scalars as usize + routine.arrays.len() {
        return slip("REFUSED", [10, 0, 0, 0]);
    }
    let secret = |name: u32| levels[name as usize] == b'1';
    let flows = |name, bound: Option<u32>| !secret(name) || bound.is_some_and(|t| secret(routine.scalars + t));
    match first_leak(&routine, model, timed, flows) {
        None => slip("CLEAR", [0; 4]),
        Some(leak) => slip("LEAK", [leak.node, leak.operand, leak.bound, leak.name]),
    }
}
