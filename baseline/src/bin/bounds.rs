//! Loops that do one thing each, so that their times are those that the machine needs for it.
//!
//!     bounds read                     reads standard input and looks at each byte
//!     bounds write BYTES              puts each byte of a text into a piece and writes the piece
//!     bounds draw WORDS               draws random words
//!     bounds access CHECKS ROWS WORDS clears and loads words of a table, as passes over ROWS rows do
//!
//! With one more word, `say`, the result is written to standard error. It is computed without that word too,
//! since only the run decides whether it is written.

use damon_baseline::random::Random;
use std::env::args;
use std::io::{self, stdin, stdout, Read, Write};

/// The bytes that are read or written at once.
const PIECE: usize = 64 * 1024;
/// The bytes whose line feeds are counted in a byte, many at once.
const COUNTED: usize = 128;
/// The words that are drawn at once: those of a pass over the most rows.
const DRAWN: usize = 4096;
/// The least and the most passes whose places are drawn first; the passes after them have these places again.
const SETS: (usize, usize) = (16, 128);

fn main() -> io::Result<()> {
    let words: Vec<String> = args().skip(1).collect();
    let numbers: Vec<usize> = words.iter().filter_map(|word| word.parse().ok()).collect();
    let result = match (words.first().map(String::as_str), &numbers[..]) {
        (Some("read"), []) => read()?,
        (Some("write"), &[bytes]) => write(bytes)?,
        (Some("draw"), &[words]) => draw(words),
        (Some("access"), &[checks, rows, words]) if rows > 0 && words > 0 => access(checks, rows, words),
        _ => {
            eprintln!("usage: bounds read, write BYTES, draw WORDS or access CHECKS ROWS WORDS, and say");
            std::process::exit(2);
        }
    };
    if words.last().map_or(false, |word| word == "say") {
        eprintln!("{result}");
    }
    Ok(())
}

/// The line feeds of standard input.
fn read() -> io::Result<u64> {
    let mut piece = vec![0; PIECE];
    let mut input = stdin().lock();
    let mut lines = 0;
    loop {
        let bytes = input.read(&mut piece)?;
        if bytes == 0 {
            return Ok(lines);
        }
        lines += piece[..bytes].chunks(COUNTED).map(line_feeds).sum::<u64>();
    }
}

fn line_feeds(bytes: &[u8]) -> u64 {
    bytes.iter().map(|&byte| (byte == b'\n') as u8).sum::<u8>().into()
}

/// Writes this number of bytes. Each full piece ends with a line feed, up to which standard output writes at once.
fn write(bytes: usize) -> io::Result<u64> {
    let text: Vec<u8> = (1..=PIECE).map(|at| if at % 64 == 0 { b'\n' } else { b'x' }).collect();
    let mut piece = vec![0; PIECE];
    let mut output = stdout().lock();
    let mut left = bytes;
    while left > 0 {
        let now = left.min(PIECE);
        piece[..now].copy_from_slice(&text[..now]);
        output.write_all(&piece[..now])?;
        left -= now;
    }
    output.flush()?;
    Ok(bytes as u64)
}

/// The sum of this number of random words.
fn draw(words: usize) -> u64 {
    let mut random = Random::new(1);
    let mut drawn = vec![0; DRAWN];
    let mut sum = 0;
    let mut left = words;
    while left > 0 {
        let now = left.min(DRAWN);
        random.fill(&mut drawn[..now]);
        sum += drawn[..now].iter().map(|&word| u64::from(word)).sum::<u64>();
        left -= now;
    }
    sum
}

/// Stores to a place of each row and then loads each, pass after pass, until this number of checks is reached.
fn access(checks: usize, rows: usize, words: usize) -> u64 {
    let mut random = Random::new(1);
    // The places of few passes stay in the cache; a large table needs more, or few of its lines are touched.
    let passes = (words / rows).clamp(SETS.0, SETS.1);
    let sets: Vec<Vec<u32>> = (0..passes).map(|_| places(&mut random, rows, words)).collect();
    let mut table = vec![0u64; words];
    let mut sum = 0u64;
    let mut left = checks;
    for set in sets.iter().cycle() {
        let now = left.min(rows);
        if now == 0 {
            break;
        }
        set[..now].iter().for_each(|&place| table[place as usize] = left as u64);
        sum = set[..now].iter().fold(sum, |sum, &place| sum.wrapping_add(table[place as usize]));
        left -= now;
    }
    sum
}

/// A drawn place of each row. The rows have the table in equal parts, so the places rise.
fn places(random: &mut Random, rows: usize, words: usize) -> Vec<u32> {
    let mut drawn = vec![0; rows];
    random.fill(&mut drawn);
    (0..).zip(&drawn).map(|(row, &word)| ((row * words + word as usize % words) / rows) as u32).collect()
}
