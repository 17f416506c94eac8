//! Lines in, lines out: what all subcommands share.

use rules::hex;
use std::io::{self, BufRead, Read, Write};
use std::path::Path;

/// Anything that stops the program: a message for the user.
pub type Outcome = Result<(), String>;

pub fn failed(what: &str) -> impl Fn(io::Error) -> String + '_ {
    move |error| format!("{what}: {error}")
}

/// A file's name without its folder.
pub fn name_of(file: &str) -> String {
    Path::new(file).file_name().map(|n| n.to_string_lossy().into_owned()).unwrap_or_default()
}

/// A whole file, or standard input where there is none.
pub fn whole(file: Option<&str>) -> Result<Vec<u8>, String> {
    let mut bytes = Vec::new();
    match file {
        Some(path) => bytes = std::fs::read(path).map_err(failed(path))?,
        None => {
            io::stdin().lock().read_to_end(&mut bytes).map_err(failed("standard input"))?;
        }
    }
    Ok(bytes)
}

/// Answers every line of standard input with one line, or none for `None`.
pub fn each_line(mut answer: impl FnMut(&str) -> Result<Option<String>, String>) -> Outcome {
    let mut out = io::stdout().lock();
    for (index, line) in io::stdin().lock().lines().enumerate() {
        let line = line.map_err(failed("standard input"))?;
        let reply = answer(line.trim()).map_err(|e| format!("line {}: {e}", index + 1))?;
        if let Some(reply) = reply {
            // Flushed at once, so that a card can be driven over a pipe.
            writeln!(out, "{reply}")
                .and_then(|()| out.flush())
                .map_err(failed("standard output"))?;
        }
    }
    Ok(())
}

pub fn bytes_of(text: &str) -> Result<Vec<u8>, String> {
    hex::bytes(text).ok_or_else(|| format!("no hexadecimal bytes: {text}"))
}
