//! Changes of an input's lines. Most make it refused; two together make it
//! refused for two reasons, often at one line.

use calls::{Random, UNREDUCED};

use super::text::{coordinate, frame, hex, piece};

pub type Lines = Vec<Vec<u8>>;
pub type Change = fn(&mut Lines, &mut Random);

/// Bytes that are no lower-case digit, many of them next to one.
const NO_DIGITS: &[u8] = b"ABFGg/:@` \r\t\0\x7f\xb0";

/// Changes of frames, most of them in one place.
pub const FRAMES: &[Change] = &[
    |lines, _| put(lines, b"01", 2, b"02"),
    |lines, _| put(lines, b"01", 4, b"04"),
    |lines, _| put(lines, b"01", 4, b"ff"),
    |lines, _| put(lines, b"01", 6, b"15"),
    |lines, _| put(lines, b"01", 6, b"ff"),
    |lines, _| put(lines, b"01", 6, b"1514"),
    |lines, _| put(lines, b"01", 8, b"04"),
    |lines, _| put(lines, b"01", 8, b"15"),
    |lines, _| remain(lines, 10),
    |lines, _| remain(lines, 11),
    |lines, random| spoil(lines, find(lines, b"01"), 10, random),
    |lines, _| copy(lines, b"01", 1),
    |lines, _| _ = find(lines, b"01").map(|at| lines.remove(at)),
    // Coordinates.
    |lines, random| spoil(lines, find_last(lines, b"02"), 4, random),
    |lines, _| put(lines, b"02", 2, b"ff"),
    |lines, _| _ = find(lines, b"02").map(|at| lines.remove(at)),
    |lines, _| _ = find_last(lines, b"02").map(|at| lines.remove(at)),
    |lines, _| copy(lines, b"02", 0),
    |lines, _| copy(lines, b"02", 1),
    |lines, random| insert(lines, 1, coordinate(14, random)),
    |lines, random| insert(lines, fed(lines), coordinate(0, random)),
    |lines, random| insert(lines, fed(lines), coordinate(14, random)),
    |lines, random| {
        let coordinates = count(lines, b"02");
        insert(
            lines,
            1 + coordinates,
            coordinate(coordinates as u8, random),
        );
    },
    |lines, _| {
        if let (Some(first), Some(last)) = (find(lines, b"02"), find_last(lines, b"02")) {
            lines.swap(first, last);
        }
    },
    // Words.
    |lines, random| spoil(lines, find(lines, b"03"), 4, random),
    |lines, random| insert(lines, began(lines), frame(&[3, 1], &[unreduced(random)])),
    |lines, random| insert(lines, began(lines), piece(16, random)),
    |lines, random| insert(lines, began(lines), piece(17, random)),
    |lines, random| {
        insert(
            lines,
            began(lines),
            [piece(16, random), b"00".into()].concat(),
        )
    },
    |lines, _| insert(lines, began(lines), b"0300".to_vec()),
    |lines, _| insert(lines, 1, b"0300".to_vec()),
    |lines, random| insert(lines, 0, piece(1, random)),
    |lines, random| insert(lines, lines.len().saturating_sub(1), piece(1, random)),
    |lines, _| put(lines, b"03", 2, b"01"),
    |lines, _| _ = find(lines, b"03").map(|at| lines.remove(at)),
    |lines, _| lines.retain(|line| !line.starts_with(b"03")),
    // The end.
    |lines, _| insert(lines, 0, b"04".to_vec()),
    |lines, _| insert(lines, began(lines), b"04".to_vec()),
    |lines, _| lines.push(b"04".to_vec()),
    |lines, _| lines.push(vec![]),
    |lines, _| lines.push(b"zz".to_vec()),
    |lines, _| _ = lines.pop(),
];

/// Changes of any line.
pub const LINES: &[Change] = &[
    |lines, random| insert(lines, random.below(1 + lines.len() as u32) as usize, vec![]),
    |lines, random| any(lines, random, |line, _| line.push(b'\r')),
    |lines, random| any(lines, random, |line, _| line.push(b'0')),
    |lines, random| any(lines, random, |line, _| line.extend(b"00")),
    |lines, random| any(lines, random, |line, _| _ = line.pop()),
    |lines, random| {
        any(lines, random, |line, _| {
            line.truncate(line.len().saturating_sub(2))
        })
    },
    |lines, random| any(lines, random, |line, _| line.insert(0, b' ')),
    |lines, random| any(lines, random, |line, _| line.extend([b'0'; 256])),
    |lines, random| any(lines, random, |line, _| line.extend([b'0'; 65_536])),
    |lines, random| any(lines, random, |line, _| _ = line.splice(0..0, [b'0'; 256])),
    |lines, random| {
        any(lines, random, |line, random| {
            replace(line, NO_DIGITS, random)
        })
    },
    |lines, random| {
        any(lines, random, |line, random| {
            replace(line, b"0123456789abcdef", random)
        })
    },
    |lines, random| any(lines, random, |line, random| replace(line, b"\n", random)),
    |lines, random| {
        any(lines, random, |line, random| {
            kind(line, [0, 5, 16, 255], random)
        })
    },
    |lines, random| {
        any(lines, random, |line, random| {
            kind(line, [1, 2, 3, 4], random)
        })
    },
    |lines, random| _ = pick(lines, random).map(|at| lines.remove(at)),
    |lines, random| {
        if let (Some(i), Some(j)) = (pick(lines, random), pick(lines, random)) {
            lines.swap(i, j);
        }
    },
    |lines, random| lines.truncate(random.below(1 + lines.len() as u32) as usize),
];

fn find(lines: &Lines, kind: &[u8]) -> Option<usize> {
    lines.iter().position(|line| line.starts_with(kind))
}

fn find_last(lines: &Lines, kind: &[u8]) -> Option<usize> {
    lines.iter().rposition(|line| line.starts_with(kind))
}

fn count(lines: &Lines, kind: &[u8]) -> usize {
    lines.iter().filter(|line| line.starts_with(kind)).count()
}

/// After the first `03`.
fn fed(lines: &Lines) -> usize {
    find(lines, b"03").map_or(1, |at| at + 1)
}

/// Where the first `03` or `04` is.
fn began(lines: &Lines) -> usize {
    let first = [b"03", b"04"].map(|kind| find(lines, kind));
    first.into_iter().flatten().min().unwrap_or(lines.len())
}

fn insert(lines: &mut Lines, at: usize, line: Vec<u8>) {
    lines.insert(at.min(lines.len()), line);
}

/// The last line of a kind stands here too.
fn copy(lines: &mut Lines, kind: &[u8], at: usize) {
    if let Some(last) = find_last(lines, kind) {
        insert(lines, at, lines[last].clone());
    }
}

/// Digits of the first line of a kind become these.
fn put(lines: &mut Lines, kind: &[u8], at: usize, digits: &[u8]) {
    let line = find(lines, kind).map(|first| &mut lines[first]);
    if let Some(place) = line.and_then(|line| line.get_mut(at..at + digits.len())) {
        place.copy_from_slice(digits);
    }
}

/// n becomes k and so many more.
fn remain(lines: &mut Lines, more: u8) {
    let head = find(lines, b"01").and_then(|at| lines[at].get(8..10));
    let k = head.and_then(|k| u8::from_str_radix(str::from_utf8(k).ok()?, 16).ok());
    if let Some(n) = k.and_then(|k| k.checked_add(more)) {
        put(lines, b"01", 6, &hex(&[n]));
    }
}

/// A word of a line, of those that start here, becomes one that is not below p.
fn spoil(lines: &mut Lines, line: Option<usize>, from: usize, random: &mut Random) {
    let line = line.and_then(|at| lines[at].get_mut(from..));
    let mut words: Vec<_> = line
        .into_iter()
        .flat_map(|line| line.chunks_exact_mut(8))
        .collect();
    if !words.is_empty() {
        let at = random.below(words.len() as u32) as usize;
        words[at].copy_from_slice(&hex(&unreduced(random).to_be_bytes()));
    }
}

fn unreduced(random: &mut Random) -> u32 {
    UNREDUCED[random.below(UNREDUCED.len() as u32) as usize]
}

fn pick(lines: &Lines, random: &mut Random) -> Option<usize> {
    let at = random.below(lines.len() as u32) as usize;
    (at < lines.len()).then_some(at)
}

fn any(lines: &mut Lines, random: &mut Random, change: fn(&mut Vec<u8>, &mut Random)) {
    if let Some(at) = pick(lines, random) {
        change(&mut lines[at], random);
    }
}

/// A byte of the line becomes one of these.
fn replace(line: &mut [u8], with: &[u8], random: &mut Random) {
    let at = random.below(line.len() as u32) as usize;
    if let Some(byte) = line.get_mut(at) {
        *byte = with[random.below(with.len() as u32) as usize];
    }
}

fn kind(line: &mut [u8], kinds: [u8; 4], random: &mut Random) {
    if let Some(place) = line.get_mut(..2) {
        place.copy_from_slice(&hex(&[kinds[random.below(4) as usize]]));
    }
}
