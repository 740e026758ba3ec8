//! Frames as lines of digits.

use calls::Random;

use crate::step::WEIGHTS;

/// The choices of side and weight.
pub const CHOICES: u8 = 2 * WEIGHTS as u8;

pub fn hex(bytes: &[u8]) -> Vec<u8> {
    let digits: Vec<_> = bytes.iter().map(|byte| format!("{byte:02x}")).collect();
    digits.concat().into_bytes()
}

/// A frame: its bytes, and then words.
pub fn frame(bytes: &[u8], words: &[u32]) -> Vec<u8> {
    let words = words.iter().flat_map(|word| word.to_be_bytes());
    hex(&bytes.iter().copied().chain(words).collect::<Vec<_>>())
}

pub fn coordinate(index: u8, random: &mut Random) -> Vec<u8> {
    frame(&[2, index], &random.elements(4))
}

pub fn piece(count: u8, random: &mut Random) -> Vec<u8> {
    frame(&[3, count], &random.words(count.into()))
}

/// The lines of an input that is accepted: its side and weight by `choice`, its
/// coordinates in order, its words in pieces.
pub fn fitting(choice: u8, n: u8, k: u8, words: usize, random: &mut Random) -> Vec<Vec<u8>> {
    let head = [1, choice % 2, choice / 2 % WEIGHTS as u8, n, k];
    let mut lines = vec![frame(&head, &random.elements(4))];
    lines.extend((0..k).map(|index| coordinate(index, random)));
    let mut left = words;
    while left > 0 {
        let count = match words {
            0..=64 => random.below(17) as usize,
            _ => 16,
        }
        .min(left);
        lines.push(piece(count as u8, random));
        left -= count;
    }
    lines.push(b"04".to_vec());
    lines
}

/// The bytes of a line of digits; none where it is not one.
pub fn bytes(line: &[u8]) -> Vec<u8> {
    let digit = |&byte: &u8| match byte {
        b'0'..=b'9' => Some(byte - b'0'),
        b'a'..=b'f' => Some(byte - b'a' + 10),
        _ => None,
    };
    let digits: Option<Vec<_>> = line.iter().map(digit).collect();
    match digits.unwrap_or_default().as_chunks() {
        (pairs, []) => pairs.iter().map(|[high, low]| 16 * high + low).collect(),
        _ => vec![],
    }
}

/// The words of bytes, highest first.
pub fn words(bytes: &[u8]) -> Vec<u32> {
    let (words, _) = bytes.as_chunks();
    words.iter().map(|&word| u32::from_be_bytes(word)).collect()
}
