// Judges tapes by the library: a line for each name on standard input, its verdict, place, code and number of zeros, and the name.
//
//     rustc -O --edition 2021 -L native=target/staticlib -l static=lab library/example.rs -o judge_rust
#![allow(dead_code)]
mod lab;

use std::io::BufRead;

fn main() -> std::io::Result<()> {
    let words = ["", "PASS", "FAIL", "INCONCLUSIVE", "UNREADABLE"];
    for name in std::io::stdin().lock().lines() {
        let name = name?;
        let tape = std::fs::read(&name)?;
        let mut finding = [0u64; 4];
        lab::lab_judge(&tape, &mut finding);
        let [verdict, place, code, zeros] = finding;
        println!("{name} {} {place} {code} {zeros}", words[verdict as usize]);
    }
    Ok(())
}
