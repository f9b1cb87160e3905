//! The listings that are timed.

use crate::listing::{write, Node, Routine};

/// The name of the largest straight listing.
pub const STRAIGHT: &str = "straight, 128 nodes";

/// A listing with the level digits that it is judged by.
pub struct Sample {
    pub name: &'static str,
    pub nodes: usize,
    pub digits: Vec<u8>,
    pub bytes: Vec<u8>,
}

fn node(letter: u8, operands: [u32; 4]) -> Node {
    Node { letter, operands }
}

/// The sample of a routine with every name public.
fn public(name: &'static str, scalars: u32, arrays: Vec<(u32, u32)>, nodes: Vec<Node>) -> Sample {
    let digits = vec![b'0'; scalars as usize + arrays.len()];
    let count = nodes.len();
    let bytes = write(&Routine { scalars, arrays, nodes }).into_bytes();
    Sample { name, nodes: count, digits, bytes }
}

/// Statements of every kind, one after the other.
fn straight(name: &'static str, count: u32) -> Sample {
    let nodes = (0..count)
        .map(|p| {
            let (d, a, b) = (p % 24, (p * 7 + 3) % 24, (p * 5 + 1) % 24);
            match p % 6 {
                0 => node(b'K', [d, p, 0, 0]),
                1 => node(b'M', [d, a, 0, 0]),
                2 => node(b'O', [d, p % 12, a, b]),
                3 => node(b'Q', [d, a, b, (p * 3) % 24]),
                4 => node(b'R', [d, p % 8, a, 0]),
                _ => node(b'W', [p % 8, a, b, 0]),
            }
        })
        .collect();
    public(name, 24, (0..8).map(|j| (64 * j, 64)).collect(), nodes)
}

/// Whiles, one in the other, around a body.
fn nested(depth: u32, body: Vec<Node>) -> Vec<Node> {
    let end = 2 * depth + body.len() as u32 - 1;
    let mut nodes: Vec<Node> = (0..depth).map(|p| node(b'L', [p % 24, end - p, 0, 0])).collect();
    nodes.extend(body);
    nodes.extend((0..depth).rev().map(|p| node(b'J', [p, 0, 0, 0])));
    nodes
}

/// Moves that carry each name one scalar further with each turn of a loop, against the order of the nodes.
fn backwards(count: u32) -> Vec<Node> {
    (0..count).map(|p| node(b'M', [p % 23, p % 23 + 1, 0, 0])).collect()
}

/// Loops one after the other, each of which carries names backwards into the ones before through one loop around them all.
fn chained(loops: u32, moves: u32) -> Vec<Node> {
    let mut nodes = vec![node(b'L', [0, 2 + loops * (moves + 2) - 1, 0, 0])];
    for turn in 0..loops {
        let head = nodes.len() as u32;
        nodes.push(node(b'L', [turn % 24, head + moves + 1, 0, 0]));
        nodes.extend((0..moves).map(|p| {
            let scalar = (turn * moves + p) % 23;
            node(b'M', [scalar, scalar + 1, 0, 0])
        }));
        nodes.push(node(b'J', [head, 0, 0, 0]));
    }
    nodes.push(node(b'J', [0, 0, 0, 0]));
    nodes
}

/// Ifs, one in the other, with both parts filled.
fn branches(depth: u32) -> Vec<Node> {
    fn put(nodes: &mut Vec<Node>, depth: u32) {
        let head = nodes.len();
        nodes.push(node(b'I', [depth % 24, 0, 0, 0]));
        nodes.push(node(b'M', [depth % 23, depth % 23 + 1, 0, 0]));
        if depth > 1 {
            put(nodes, depth - 1);
        }
        let middle = nodes.len();
        nodes.push(node(b'E', [0; 4]));
        nodes.push(node(b'O', [(depth + 3) % 24, 0, depth % 24, 5]));
        let end = nodes.len();
        nodes.push(node(b'F', [head as u32, 0, 0, 0]));
        nodes[head].operands[1] = middle as u32;
        nodes[middle].operands[0] = end as u32;
    }
    let mut nodes = Vec::new();
    put(&mut nodes, depth);
    nodes
}

/// The listings, from the smallest to the hardest.
pub fn all() -> Vec<Sample> {
    vec![
        public("empty", 0, vec![], vec![]),
        public("look-up, 2 nodes", 2, vec![(0, 4)], vec![node(b'R', [1, 0, 0, 0]), node(b'K', [0, 7, 0, 0])]),
        straight("straight, 16 nodes", 16),
        straight("straight, 64 nodes", 64),
        straight(STRAIGHT, 128),
        public("16 ifs, one in the other", 24, vec![], branches(16)),
        public("one loop, names carried backwards", 24, vec![], nested(1, backwards(126))),
        public("16 nested loops, names carried backwards", 24, vec![], nested(16, backwards(96))),
        public("7 loops in a loop, names carried backwards", 24, vec![], chained(7, 16)),
    ]
}

/// A loop that does not end: the sum of an array, over and over.
pub fn endless() -> Vec<u8> {
    let body = vec![
        node(b'O', [1, 0, 1, 0]),
        node(b'R', [2, 0, 1, 0]),
        node(b'O', [3, 0, 3, 2]),
        node(b'W', [0, 1, 3, 0]),
        node(b'Q', [4, 3, 1, 2]),
    ];
    let mut nodes = vec![node(b'K', [0, 1, 0, 0])];
    let end = 2 + body.len() as u32;
    nodes.push(node(b'L', [0, end, 0, 0]));
    nodes.extend(body);
    nodes.push(node(b'J', [1, 0, 0, 0]));
    write(&Routine { scalars: 5, arrays: vec![(0, 64)], nodes }).into_bytes()
}
