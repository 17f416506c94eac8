//! The subcommands that dress tapes and scripts.

use super::clothes::{dressed, Zeal};
use super::tapes::{answers_of, changed_tape, dressed_tape, Walk, Walked};
use crate::random::Random;
use crate::scenarios::Stock;
use crate::tapes::made_tape;
use rules::edition::Edition;
use rules::hex;
use rules::judge::{judge_by, Due};
use rules::tape::{self, Entry};
use std::io::{self, Write};
use std::path::Path;

/// Keeps the stream that dresses a tape apart from the one that made it.
const DRESSING: u64 = 0xD8E5_5ED0;

/// How often two lines were held against each other, and how often they
/// differed.
#[derive(Clone, Copy, Default)]
struct Count {
    compared: usize,
    differ: usize,
}

impl Count {
    fn add(&mut self, one: &str, other: &str) {
        self.compared += 1;
        self.differ += usize::from(one != other);
    }
}

/// Where tapes go and what is said of them.
struct Put<'a, W: Write> {
    edition: Edition,
    folder: &'a Path,
    out: W,
}

impl<W: Write> Put<'_, W> {
    /// Writes a tape and its line.
    fn put(&mut self, name: &str, bytes: &[u8]) -> io::Result<String> {
        std::fs::write(self.folder.join(format!("{name}.tape")), bytes)?;
        let line = judge_by(self.edition, bytes).to_string();
        writeln!(self.out, "{name} {line}")?;
        Ok(line)
    }
}

/// Makes `count` tapes that have an answer to dress, each with one that is
/// dressed and one that is changed, and prints their lines. True if no dressed
/// one has another line than its tape.
pub fn make_dressed(edition: Edition, folder: &Path, count: usize, seed: u64) -> io::Result<bool> {
    std::fs::create_dir_all(folder)?;
    let stock = Stock::of(edition);
    let mut to = Put { edition, folder, out: io::BufWriter::new(io::stdout().lock()) };
    let (mut same, mut other) = (Count::default(), Count::default());
    let mut index = 0;
    while same.compared < count {
        let mut r = Random::nth(seed, index as u64);
        let bytes = made_tape(&stock.scenario(index, &mut r), &mut r);
        let mut r = Random::nth(seed ^ DRESSING, index as u64);
        index += 1;
        if answers_of(edition, &bytes).spots.is_empty() {
            continue;
        }
        let name = format!("{:06}", same.compared + 1);
        let line = to.put(&name, &bytes)?;
        let after = dressed_tape(edition, &bytes, &mut r);
        same.add(&line, &to.put(&format!("{name}-dressed"), &after)?);
        if let Some(after) = changed_tape(edition, &bytes, &mut r) {
            other.add(&line, &to.put(&format!("{name}-changed"), &after)?);
        }
    }
    let Count { compared, differ } = same;
    writeln!(
        to.out,
        "{compared} dressed, {differ} differ; {} changed, {} differ",
        other.compared, other.differ
    )?;
    to.out.flush()?;
    Ok(differ == 0)
}

/// Dresses one tape.
pub fn dress_tape(edition: Edition, from: &str, to: &str, seed: u64) -> Result<(), String> {
    let bytes = std::fs::read(from).map_err(|error| format!("{from}: {error}"))?;
    let after = dressed_tape(edition, &bytes, &mut Random::nth(seed, 0));
    std::fs::write(to, after).map_err(|error| format!("{to}: {error}"))
}

/// A line of a script as an entry, if it is an event.
fn entry_of(edition: Edition, line: &str) -> Result<Option<(u8, Vec<u8>)>, String> {
    let (word, rest) = line.split_once(char::is_whitespace).unwrap_or((line, ""));
    let kind = match word {
        "START" => tape::START,
        "ANSWER" => tape::ANSWER,
        "SILENCE" => tape::SILENCE,
        "HOST" => tape::HOST,
        "RESULTS" => tape::RESULTS,
        "CHOICE" if edition == Edition::Choosing => tape::CHOICE,
        "" | "ROOM" => return Ok(None),
        _ => return Err(format!("unknown word: {word}")),
    };
    let payload = hex::bytes(rest.trim()).ok_or(format!("no hexadecimal bytes: {rest}"))?;
    Ok(Some((kind, payload)))
}

/// The lines of a script, every answer that R-13 is about with some of
/// everything that can be put on.
fn dressed_lines(edition: Edition, text: &str, r: &mut Random) -> Result<String, String> {
    let mut walk = Walk::by(edition);
    let mut out = String::new();
    for line in text.lines().map(str::trim) {
        // A script has no commands: the terminal gives the ones that are due.
        if let Due::Command(command) = walk.follower.due().clone() {
            walk.step(Entry { kind: tape::COMMAND, payload: &command });
        }
        let walked = entry_of(edition, line)?.map(|(kind, payload)| {
            let walked = walk.step(Entry { kind, payload: &payload });
            (walked, payload)
        });
        out += &match walked {
            Some((Walked::Answer(asked), payload)) => {
                let after = dressed(asked, &payload, Zeal::Everything, r);
                format!("ANSWER {}\n", hex::text(&after))
            }
            _ => format!("{line}\n"),
        };
    }
    Ok(out)
}

/// Prints a script dressed.
pub fn dress_script(edition: Edition, path: &str, seed: u64) -> Result<(), String> {
    let text = std::fs::read_to_string(path).map_err(|error| format!("{path}: {error}"))?;
    print!("{}", dressed_lines(edition, &text, &mut Random::nth(seed, 0))?);
    Ok(())
}
