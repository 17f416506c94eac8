//! Tapes judged, followed and recovered.

use crate::console::{failed, name_of, whole, Outcome};
use rules::due::Account;
use rules::edition::Edition;
use rules::feed::UnderWay;
use rules::judge::Judgement;
use rules::recover::{recover_by, Found};
use rules::tape::BLOCK;
use std::fs::File;
use std::io::{self, Read, Write};

/// Fills a block from the source, as far as there are bytes.
fn read_block(source: &mut impl Read, block: &mut [u8; BLOCK]) -> io::Result<usize> {
    let mut filled = 0;
    while filled < BLOCK {
        match source.read(&mut block[filled..]) {
            Ok(0) => break,
            Ok(count) => filled += count,
            Err(error) if error.kind() == io::ErrorKind::Interrupted => (),
            Err(error) => return Err(error),
        }
    }
    Ok(filled)
}

/// Judges block by block, and no further than to see that it is too much.
fn judge_from(edition: Edition, source: impl Read) -> io::Result<Judgement> {
    let mut source = io::BufReader::new(source);
    let mut under_way = UnderWay::begin(edition);
    let mut block = [0; BLOCK];
    loop {
        let size = read_block(&mut source, &mut block)?;
        if size < BLOCK || under_way.is_too_long() {
            return Ok(under_way.end(size % BLOCK));
        }
        under_way = under_way.feed(&block);
    }
}

pub fn judge_tapes(edition: Edition, files: &[String]) -> Outcome {
    let judge = |source: &mut dyn Read| judge_from(edition, source);
    if files.is_empty() {
        let judgement = judge(&mut io::stdin().lock()).map_err(failed("standard input"))?;
        println!("{judgement}");
    }
    let mut out = io::BufWriter::new(io::stdout().lock());
    for file in files {
        let opened = File::open(file);
        let judgement = opened.and_then(|mut tape| judge(&mut tape)).map_err(failed(file))?;
        writeln!(out, "{} {judgement}", name_of(file)).map_err(failed("standard output"))?;
    }
    Ok(())
}

/// What is due at each place of a tape, and its line as the judge prints it.
pub fn tell_dues(edition: Edition, files: &[String]) -> Outcome {
    if files.is_empty() {
        let account = Account::by(edition, &whole(None)?);
        println!("{}{}", account.lines(), account.judgement);
    }
    for file in files {
        let account = Account::by(edition, &whole(Some(file))?);
        println!("{}{} {}", account.lines(), name_of(file), account.judgement);
    }
    Ok(())
}

/// What is left of a damaged tape: a line for each good block, and the tail.
pub fn recover_tape(edition: Edition, file: Option<&str>) -> Outcome {
    let remains = recover_by(edition, &whole(file)?);
    for block in &remains.blocks {
        let Found { step, number, session, kind, length } = block;
        println!("BLOCK {step} {number} {session} {kind} {length}");
    }
    println!("TAIL {}", remains.tail);
    Ok(())
}
