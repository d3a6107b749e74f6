//! A plain loop that cuts a text by the same table, with nothing checked beyond what Rust checks: for comparison.
//! Usage: plain ROUNDS, with the files `table` (one-byte) and `text` in the current folder. Prints nanoseconds for a page.
use std::env;
use std::fs;
use std::hint::black_box;
use std::time::Instant;

fn word(table: &[u8], at: usize) -> usize {
    usize::from(table[at]) << 8 | usize::from(table[at + 1])
}

fn cut(table: &[u8], text: &[u8], buffer: &mut [u8]) -> usize {
    let classes = &table[word(table, 4)..word(table, 4) + 256];
    let list = word(table, 10);
    let doubled = word(table, list + 2);
    let width = word(table, list + 4) - doubled;
    let codes = &table[list + doubled..];
    let mut filled = 0;
    let mut start = 0;
    while start < text.len() {
        let mut state = 1;
        let mut end = start;
        let mut at = start;
        loop {
            if at == text.len() {
                end = at;
                break;
            }
            let code = codes[(state - 1) * width + usize::from(classes[usize::from(text[at])])];
            if code >= 128 {
                end = at;
            }
            state = usize::from(code & 127) / 2;
            if state == 0 {
                break;
            }
            at += 1;
        }
        buffer[filled..filled + 2].copy_from_slice(&(start as u16).to_be_bytes());
        buffer[filled + 2..filled + 4].copy_from_slice(&(end as u16).to_be_bytes());
        filled += 4;
        start = end;
    }
    filled
}

fn main() {
    let rounds: u32 = env::args().nth(1).and_then(|word| word.parse().ok()).unwrap_or(100);
    let table = fs::read("table").expect("the file table");
    let text = fs::read("text").expect("the file text");
    let mut buffer = vec![0; 4 * text.len()];
    let begun = Instant::now();
    let mut total = 0;
    for _ in 0..rounds {
        total += cut(black_box(&table), black_box(&text), &mut buffer);
    }
    let nanos = begun.elapsed().as_nanos() / u128::from(rounds.max(1));
    println!("plain {nanos} {total}");
}
