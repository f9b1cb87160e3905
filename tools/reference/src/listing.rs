//! Listings: read line by line, and written (docs/FORMATS.md, docs/REFUSALS.md).

pub const LINE: usize = 51;

#[derive(Clone, Copy, Debug, PartialEq, Eq)]
pub struct Refusal {
    pub number: u32,
    pub line: u32,
    pub field: u32,
}

fn refuse<T>(number: u32, line: usize, field: u32) -> Result<T, Refusal> {
    let line = u32::try_from(line).unwrap_or(u32::MAX);
    Err(Refusal { number, line, field })
}

/// A node: its letter and its operands, as they stand in the listing.
#[derive(Clone, Copy, Debug, PartialEq, Eq)]
pub struct Node {
    pub letter: u8,
    pub operands: [u32; 4],
}

#[derive(Clone, Debug, PartialEq, Eq)]
pub struct Routine {
    pub scalars: u32,
    pub arrays: Vec<(u32, u32)>,
    pub nodes: Vec<Node>,
}

/// How many operands follow a letter.
fn operand_count(letter: u8) -> Option<usize> {
    Some(match letter {
        b'O' | b'Q' => 4,
        b'H' | b'R' | b'W' => 3,
        b'A' | b'K' | b'M' | b'I' | b'L' => 2,
        b'E' | b'F' | b'J' => 1,
        _ => return None,
    })
}

/// The number in a column, by its text: what is shown again must be the same bytes.
fn number(column: &[u8]) -> Option<u32> {
    let text = std::str::from_utf8(column).ok()?;
    let value: u32 = text.trim_start_matches(' ').parse().ok()?;
    (format!("{value:>width$}", width = column.len()).as_bytes() == column).then_some(value)
}

struct Columns {
    number: u32,
    letter: u8,
    operands: [u32; 4],
}

fn columns(bytes: &[u8], line: usize) -> Result<Columns, Refusal> {
    let Some(label) = number(&bytes[..4]) else { return refuse(2, line, 0) };
    let letter = bytes[5];
    let Some(count) = operand_count(letter).filter(|_| bytes[4] == b' ') else { return refuse(2, line, 1) };
    let mut operands = [0; 4];
    for (place, operand) in operands.iter_mut().enumerate() {
        let column = &bytes[6 + 11 * place..17 + 11 * place];
        let value = if place < count { number(column) } else { (column == [b' '; 11]).then_some(0) };
        match value {
            Some(value) => *operand = value,
            None => return refuse(2, line, place as u32 + 2),
        }
    }
    if bytes[50] != b'\n' {
        return refuse(2, line, 6);
    }
    Ok(Columns { number: label, letter, operands })
}

/// Which operands of a node name scalars (s), arrays (a) or an operator (o).
fn roles(letter: u8) -> &'static [u8] {
    match letter {
        b'K' | b'I' | b'L' => b"s",
        b'M' => b"ss",
        b'O' => b"soss",
        b'Q' => b"ssss",
        b'R' => b"sas",
        b'W' => b"ass",
        _ => b"",
    }
}

/// An open part: what must close it, where that must stand, and the head that it must name.
struct Part {
    closer: u8,
    at: u32,
    head: u32,
}

pub fn load(bytes: &[u8]) -> Result<Routine, Refusal> {
    if bytes.is_empty() || bytes.len() % LINE != 0 {
        return refuse(1, bytes.len() / LINE, 0);
    }
    let lines: Vec<&[u8]> = bytes.chunks(LINE).collect();
    let header = columns(lines[0], 0)?;
    if header.number != 0 {
        return refuse(3, 0, 0);
    }
    if header.letter != b'H' {
        return refuse(3, 0, 1);
    }
    for (place, limit) in [24, 8, 128].into_iter().enumerate() {
        if header.operands[place] > limit {
            return refuse(4, 0, place as u32 + 2);
        }
    }
    let [scalars, arrays, nodes, _] = header.operands;
    if lines.len() != (1 + arrays + nodes) as usize {
        return refuse(5, 0, 0);
    }
    let mut routine = Routine { scalars, arrays: Vec::new(), nodes: Vec::new() };
    let mut end = 0;
    for j in 0..arrays {
        let line = 1 + j as usize;
        let row = columns(lines[line], line)?;
        if row.number != j {
            return refuse(3, line, 0);
        }
        if row.letter != b'A' {
            return refuse(3, line, 1);
        }
        let [start, length, ..] = row.operands;
        if start < end || start > 511 {
            return refuse(6, line, 2);
        }
        if length == 0 || length > 256 || start + length > 512 {
            return refuse(6, line, 3);
        }
        end = start + length;
        routine.arrays.push((start, length));
    }
    let mut open: Vec<Part> = Vec::new();
    for p in 0..nodes {
        let line = 1 + arrays as usize + p as usize;
        let row = columns(lines[line], line)?;
        if row.number != p {
            return refuse(3, line, 0);
        }
        if row.letter == b'H' || row.letter == b'A' {
            return refuse(3, line, 1);
        }
        for (place, role) in roles(row.letter).iter().enumerate() {
            let limit = match role {
                b's' => scalars,
                b'a' => arrays,
                _ => 12,
            };
            if row.operands[place] >= limit {
                return refuse(7, line, place as u32 + 2);
            }
        }
        follow(&mut open, p, &row, line)?;
        routine.nodes.push(Node { letter: row.letter, operands: row.operands });
    }
    if !open.is_empty() {
        return refuse(8, 1 + (arrays + nodes) as usize, 0);
    }
    Ok(routine)
}

/// The open parts after a node.
fn follow(open: &mut Vec<Part>, p: u32, row: &Columns, line: usize) -> Result<(), Refusal> {
    match row.letter {
        b'I' | b'L' => {
            if open.len() == 16 {
                return refuse(9, line, 1);
            }
            let closer = if row.letter == b'I' { b'E' } else { b'J' };
            open.push(Part { closer, at: row.operands[1], head: p });
        }
        b'E' | b'F' | b'J' => {
            let fits = open.last().is_some_and(|part| part.closer == row.letter && part.at == p);
            let Some(part) = open.pop().filter(|_| fits) else { return refuse(8, line, 1) };
            if row.letter == b'E' {
                open.push(Part { closer: b'F', at: row.operands[0], head: part.head });
            } else if row.operands[0] != part.head {
                return refuse(8, line, 2);
            }
        }
        _ => {}
    }
    Ok(())
}

pub fn line(number: u32, letter: u8, operands: &[u32]) -> String {
    let mut text = format!("{number:>4} {}", letter as char);
    for place in 0..4 {
        match operands.get(place) {
            Some(value) => text += &format!("{value:>11}"),
            None => text += "           ",
        }
    }
    text + "\n"
}

pub fn write(routine: &Routine) -> String {
    let mut text = line(0, b'H', &[routine.scalars, routine.arrays.len() as u32, routine.nodes.len() as u32]);
    for (j, &(start, length)) in routine.arrays.iter().enumerate() {
        text += &line(j as u32, b'A', &[start, length]);
    }
    for (p, node) in routine.nodes.iter().enumerate() {
        let count = operand_count(node.letter).unwrap_or(0);
        text += &line(p as u32, node.letter, &node.operands[..count]);
    }
    text
}
