// Damaged bytes: a book truncated, extended, with flipped bits, or with a count or offset at an edge.

use crate::random::Random;

pub fn damaged(mut book: Vec<u8>, random: &mut Random) -> Vec<u8> {
    match random.below(5) {
        0 => book.truncate(random.below(book.len() + 1)),
        1 => {
            for _ in 0..1 + random.below(60) {
                book.push(random.number() as u8);
            }
        }
        2 => {
            for _ in 0..1 + random.below(4) {
                flip(&mut book, random);
            }
        }
        3 => replace(&mut book, random),
        _ => put_edge(&mut book, random),
    }
    book
}

fn flip(book: &mut [u8], random: &mut Random) {
    if !book.is_empty() {
        book[random.below(book.len())] ^= 1 << random.below(8);
    }
}

fn replace(book: &mut [u8], random: &mut Random) {
    if !book.is_empty() {
        book[random.below(book.len())] = random.number() as u8;
    }
}

/// One or two fields of the table of contents get a value at an edge.
fn put_edge(book: &mut [u8], random: &mut Random) {
    let length = book.len() as u32;
    let edges = [0, 1, 47, 48, 49, length, length + 1, 127, 128, 129, 511, 512, 513, 2047, 2048, 2049];
    let more_edges = [4095, 4096, 4097, 65_535, 65_536, 0x8000_0000, 0xffff_fff0, u32::MAX];
    for _ in 0..1 + random.below(2) {
        let at = 4 * random.below(12);
        if at + 4 <= book.len() {
            let edge = if random.percent(60) { random.pick(&edges) } else { random.pick(&more_edges) };
            book[at..at + 4].copy_from_slice(&edge.to_le_bytes());
        }
    }
}
