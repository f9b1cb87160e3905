//! Random routines, sound and damaged.

use crate::listing::{line, write, Node, Routine, LINE};

/// A small generator of numbers (xorshift), so that a seed gives the same cases everywhere.
pub struct Random(u64);

impl Random {
    pub fn new(seed: u64) -> Random {
        Random(seed.wrapping_mul(0x9E37_79B9_7F4A_7C15) | 1)
    }

    fn next(&mut self) -> u64 {
        self.0 ^= self.0 << 13;
        self.0 ^= self.0 >> 7;
        self.0 ^= self.0 << 17;
        self.0
    }

    /// A number below a limit.
    pub fn below(&mut self, limit: u32) -> u32 {
        ((self.next() >> 32) % u64::from(limit.max(1))) as u32
    }

    fn one_in(&mut self, odds: u32) -> bool {
        self.below(odds) == 0
    }
}

fn value(random: &mut Random) -> u32 {
    match random.below(6) {
        0 => 0,
        1 => u32::MAX,
        2 => random.below(40),
        3 => 1 << random.below(32),
        _ => random.next() as u32,
    }
}

/// Statements into `nodes`, at most `room` of them, at a depth.
fn block(random: &mut Random, routine: &mut Routine, mut room: u32, depth: u32) {
    while room > 0 && !random.one_in(12) {
        let at = routine.nodes.len() as u32;
        let before = routine.nodes.len();
        let (s, a) = (routine.scalars, routine.arrays.len() as u32);
        let kind = random.below(if depth < 16 { 10 } else { 7 });
        let d = random.below(s);
        let (x, y, z) = (random.below(s), random.below(s), random.below(s));
        let node = |letter, operands| Node { letter, operands };
        match kind {
            0 => {
                let v = value(random);
                routine.nodes.push(node(b'K', [d, v, 0, 0]));
            }
            1 | 2 => routine.nodes.push(node(b'M', [d, x, 0, 0])),
            3 => {
                let op = random.below(12);
                routine.nodes.push(node(b'O', [d, op, x, y]));
            }
            4 => routine.nodes.push(node(b'Q', [d, x, y, z])),
            5 if a > 0 => {
                let t = random.below(a);
                routine.nodes.push(node(b'R', [d, t, x, 0]));
            }
            6 if a > 0 => {
                let t = random.below(a);
                routine.nodes.push(node(b'W', [t, x, y, 0]));
            }
            7 | 8 if room >= 3 => {
                routine.nodes.push(node(b'I', [x, 0, 0, 0]));
                let most = random.below(room - 2);
                block(random, routine, most, depth + 1);
                let middle = routine.nodes.len() as u32;
                routine.nodes[before].operands[1] = middle;
                routine.nodes.push(node(b'E', [0, 0, 0, 0]));
                let left = room - 2 - (middle - at - 1).min(room - 2);
                let most = random.below(left + 1).min(left);
                block(random, routine, most, depth + 1);
                let end = routine.nodes.len() as u32;
                routine.nodes[middle as usize].operands[0] = end;
                routine.nodes.push(node(b'F', [at, 0, 0, 0]));
            }
            9 if room >= 2 => {
                routine.nodes.push(node(b'L', [x, 0, 0, 0]));
                let most = random.below(room - 1);
                block(random, routine, most, depth + 1);
                let end = routine.nodes.len() as u32;
                routine.nodes[before].operands[1] = end;
                routine.nodes.push(node(b'J', [at, 0, 0, 0]));
            }
            _ => routine.nodes.push(node(b'M', [d, y, 0, 0])),
        }
        room = room.saturating_sub((routine.nodes.len() - before) as u32);
    }
}

pub fn routine(random: &mut Random) -> Routine {
    let mut routine = Routine { scalars: 1 + random.below(24), arrays: Vec::new(), nodes: Vec::new() };
    let mut end = 0;
    for _ in 0..random.below(9) {
        let start = end + random.below(20);
        let length = 1 + random.below(60);
        if start + length > 512 {
            break;
        }
        routine.arrays.push((start, length));
        end = start + length;
    }
    let room = match random.below(4) {
        0 => random.below(4),
        1 => 120,
        _ => random.below(40),
    };
    block(random, &mut routine, room, 0);
    routine.nodes.truncate(128);
    routine
}

/// Level digits for a routine: mostly as many as it wants, mostly public.
pub fn levels(random: &mut Random, routine: &Routine) -> Vec<u8> {
    let wanted = routine.scalars as usize + routine.arrays.len();
    let odds = 1 + random.below(8);
    let mut digits: Vec<u8> = (0..wanted).map(|_| if random.one_in(odds) { b'1' } else { b'0' }).collect();
    match random.below(20) {
        0 => digits.push(b'0'),
        1 => {
            digits.pop();
        }
        2 => {
            let place = random.below(wanted as u32) as usize;
            digits[place] = b"2 x\x00\xff/"[random.below(6) as usize];
        }
        _ => {}
    }
    digits
}

/// A listing that is sound, or damaged in one of many ways.
pub fn listing(random: &mut Random, routine: &Routine) -> Vec<u8> {
    let mut bytes = write(routine).into_bytes();
    let lines = bytes.len() / LINE;
    let pick = |random: &mut Random| random.below(lines as u32) as usize;
    match random.below(12) {
        0 => {
            let place = random.below(bytes.len() as u32) as usize;
            bytes[place] = b" 0159HAKMOQRWIEFLJX\n\t\r\x00\xff"[random.below(24) as usize];
        }
        1 => {
            let length = random.below(bytes.len() as u32) as usize;
            bytes.truncate(length);
        }
        2 => {
            let at = pick(random) * LINE;
            bytes.drain(at..at + LINE);
        }
        3 => {
            let at = pick(random) * LINE;
            let copy = bytes[at..at + LINE].to_vec();
            bytes.splice(at..at, copy);
        }
        4 | 5 => {
            // another number in an operand column
            let (row, place) = (pick(random), random.below(4) as usize);
            let number = match random.below(4) {
                0 => value(random),
                1 => random.below(30),
                2 => random.below(600),
                _ => random.below(140),
            };
            let at = row * LINE + 6 + 11 * place;
            bytes[at..at + 11].copy_from_slice(format!("{number:>11}").as_bytes());
        }
        6 => {
            let (row, other) = (pick(random), pick(random));
            for i in 0..LINE {
                bytes.swap(row * LINE + i, other * LINE + i);
            }
        }
        7 => {
            // a whole line of another kind, rightly numbered
            let row = pick(random);
            let number: u32 = std::str::from_utf8(&bytes[row * LINE..row * LINE + 4]).unwrap_or("0").trim().parse().unwrap_or(0);
            let letter = b"HAKMOQRWIEFLJ"[random.below(13) as usize];
            let operands = [random.below(24), random.below(128), random.below(24), random.below(24)];
            let count = random.below(5) as usize;
            bytes[row * LINE..(row + 1) * LINE].copy_from_slice(line(number, letter, &operands[..count]).as_bytes());
        }
        _ => {}
    }
    bytes
}

/// So many whiles, one in the other: 16 load and 17 do not.
pub fn nested(depth: u32) -> Routine {
    let mut nodes = Vec::new();
    for head in 0..depth {
        nodes.push(Node { letter: b'L', operands: [0, 2 * depth - 1 - head, 0, 0] });
    }
    for head in (0..depth).rev() {
        nodes.push(Node { letter: b'J', operands: [head, 0, 0, 0] });
    }
    Routine { scalars: 1, arrays: Vec::new(), nodes }
}
