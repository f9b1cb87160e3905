//! Clearance by the rules (docs/RULES.md, section 4): reach as a least fixed point, then the lowest violation.

use crate::listing::Routine;
use std::collections::BTreeSet;

/// What a listener watches and hears.
#[derive(Clone, Copy, Debug)]
pub enum Model {
    ProgramCounter,
    Baseline,
    CacheLine(u32),
}

impl Model {
    fn watches_index(self, (start, length): (u32, u32)) -> bool {
        match self {
            Model::ProgramCounter => false,
            Model::Baseline => true,
            Model::CacheLine(cells) => start / cells != (start + length - 1) / cells,
        }
    }
}

#[derive(Clone, Copy, Debug, PartialEq, Eq)]
pub struct Leak {
    pub node: u32,
    pub operand: u32,
    pub bound: u32,
    pub name: u32,
}

fn next_points(routine: &Routine, p: usize) -> Vec<usize> {
    let node = routine.nodes[p];
    let [first, second, ..] = node.operands.map(|x| x as usize);
    match node.letter {
        b'I' | b'L' => vec![p + 1, second + 1],
        b'E' | b'J' => vec![first],
        _ => vec![p + 1],
    }
}

/// The scalar that a node sets, with the scalars that it reads and the array.
fn transfer(routine: &Routine, p: usize) -> (Option<usize>, Vec<usize>, Option<usize>) {
    let node = routine.nodes[p];
    let [a, b, c, d] = node.operands.map(|x| x as usize);
    match node.letter {
        b'K' => (Some(a), vec![], None),
        b'M' => (Some(a), vec![b], None),
        b'O' => (Some(a), vec![c, d], None),
        b'Q' => (Some(a), vec![b, c, d], None),
        b'R' => (Some(a), vec![c], Some(b)),
        _ => (None, vec![], None),
    }
}

type Names = BTreeSet<u32>;

/// The start names that reach each scalar at each point.
pub fn reach(routine: &Routine) -> Vec<Vec<Names>> {
    let (s, n) = (routine.scalars as usize, routine.nodes.len());
    let mut table = vec![vec![Names::new(); s]; n + 1];
    for k in 0..s {
        table[0][k].insert(k as u32);
    }
    loop {
        let mut grew = false;
        for p in 0..n {
            let (target, read, array) = transfer(routine, p);
            for q in next_points(routine, p) {
                for k in 0..s {
                    let mut names = Names::new();
                    if target == Some(k) {
                        for &r in &read {
                            names.extend(&table[p][r]);
                        }
                        names.extend(array.map(|t| routine.scalars + t as u32));
                    } else {
                        names.extend(&table[p][k]);
                    }
                    for name in names {
                        grew |= table[q][k].insert(name);
                    }
                }
            }
        }
        if !grew {
            return table;
        }
    }
}

/// The first leak, where `flows(m, b)` says whether start name m flows to bound b: none for the listener, else an array.
pub fn first_leak(routine: &Routine, model: Model, timed: bool, flows: impl Fn(u32, Option<u32>) -> bool) -> Option<Leak> {
    let table = reach(routine);
    for (p, node) in routine.nodes.iter().enumerate() {
        let [a, b, c, d] = node.operands;
        let region = |t: u32| routine.arrays[t as usize];
        let divides = timed && (b == 8 || b == 9);
        let held: Vec<(u32, Option<u32>, u32)> = match node.letter {
            b'I' | b'L' => vec![(1, None, a)],
            b'O' if divides => vec![(3, None, c), (4, None, d)],
            b'R' if model.watches_index(region(b)) => vec![(3, None, c)],
            b'W' => {
                let watched = model.watches_index(region(a)).then_some((2, None, b));
                watched.into_iter().chain([(2, Some(a), b), (3, Some(a), c)]).collect()
            }
            _ => vec![],
        };
        for (operand, bound, scalar) in held {
            for &name in &table[p][scalar as usize] {
                if !flows(name, bound) {
                    return Some(Leak { node: p as u32, operand, bound: bound.is_some() as u32, name });
                }
            }
        }
    }
    None
}
