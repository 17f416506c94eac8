//! The front program: takes the command line apart and calls what does the work.

use generator::Mixture;
use lines::console::Outcome;
use lines::{answers, calls, check, exchanges, objects, play, resets, samples, tapes};
use rules::edition::Edition;
use std::path::Path;
use std::process::ExitCode;

const USAGE: &str = "usage:
  reference judge [--choosing] [FILE ..]
  reference due [--choosing] [FILE ..]
  reference play [--choosing] [--tape FILE] [--session N]
  reference sample NAME
  reference objects
  reference write
  reference fill [counted]
  reference answers [--choosing]
  reference make [--choosing] DIR COUNT SEED [--list FILE]
  reference make-mixture night|fat DIR COUNT SEED
  reference make-calls [--choosing] COUNT SEED
  reference calls [--choosing] FILE
  reference check-selection FILE
  reference atr
  reference make-atr COUNT SEED
  reference check-atr FILE
  reference t0 [handed]
  reference make-t0 COUNT SEED
  reference check-t0 FILE
  reference recover [--choosing] [FILE]
  reference make-recover [--choosing] COUNT SEED
  reference check-recover [--choosing] FILE
  reference make-book COUNT SEED
  reference check-book FILE
  reference make-t1 COUNT SEED
  reference check-t1 FILE
  reference dress [--choosing] DIR COUNT SEED
  reference dress-tape [--choosing] FILE OUT SEED
  reference dress-script [--choosing] FILE SEED";

/// R-12 of 02 has not landed. Its rules hold for those commands that they make
/// a difference to, where this is among the arguments.
const CHOOSING: &str = "--choosing";
const WITH_CHOOSING: [&str; 13] = [
    "judge",
    "due",
    "play",
    "answers",
    "make",
    "make-calls",
    "calls",
    "recover",
    "make-recover",
    "check-recover",
    "dress",
    "dress-tape",
    "dress-script",
];

/// What subcommands of one kind do, by name.
type Table<T> = &'static [(&'static str, T)];

/// Those that make something and print it: `COUNT SEED`.
const MAKERS: Table<fn(Edition, usize, u64)> = &[
    ("make-calls", generator::make_calls),
    ("make-atr", |_, count, seed| generator::make_resets(count, seed)),
    ("make-t0", |_, count, seed| generator::make_exchanges(count, seed)),
    ("make-recover", generator::make_remains),
    ("make-book", |_, count, seed| generator::make_books(count, seed)),
    ("make-t1", |_, count, seed| generator::make_blocks(count, seed)),
];

/// Those that hold a file against the rules: `FILE`.
const CHECKS: Table<fn(Edition, &str) -> Outcome> = &[
    ("calls", calls::replay_file),
    ("check-selection", |_, file| check::check_selection(file)),
    ("check-atr", |_, file| check::check_resets(file)),
    ("check-t0", |_, file| check::check_exchanges(file)),
    ("check-recover", check::check_remains),
    ("check-book", |_, file| check::check_books(file)),
    ("check-t1", |_, file| check::check_blocks(file)),
];

/// The one with this name.
fn find<T: Copy>(table: Table<T>, name: &str) -> Option<T> {
    table.iter().find(|entry| entry.0 == name).map(|entry| entry.1)
}

/// The rules that a command goes by; the switch is taken out of the arguments.
fn edition(command: &str, arguments: &mut Vec<String>) -> Edition {
    let switch = arguments.iter().position(|argument| argument == CHOOSING);
    match switch.filter(|_| WITH_CHOOSING.contains(&command)) {
        Some(at) => {
            arguments.remove(at);
            Edition::Choosing
        }
        None => Edition::default(),
    }
}

/// Takes `--name VALUE` out of the arguments.
fn option(arguments: &mut Vec<String>, name: &str) -> Result<Option<String>, String> {
    let Some(at) = arguments.iter().position(|a| a == name) else {
        return Ok(None);
    };
    if at + 1 >= arguments.len() {
        return Err(format!("{name} needs a value"));
    }
    arguments.remove(at);
    Ok(Some(arguments.remove(at)))
}

fn number<T: std::str::FromStr>(text: &str) -> Result<T, String> {
    text.parse().map_err(|_| format!("no number: {text}"))
}

fn words(arguments: &[String]) -> Vec<&str> {
    arguments.iter().map(String::as_str).collect()
}

fn run(command: &str, mut arguments: Vec<String>) -> Outcome {
    let edition = edition(command, &mut arguments);
    match command {
        "judge" => return tapes::judge_tapes(edition, &arguments),
        "due" => return tapes::tell_dues(edition, &arguments),
        _ => (),
    }
    let tape = option(&mut arguments, "--tape")?;
    let session = option(&mut arguments, "--session")?;
    let list = option(&mut arguments, "--list")?;
    match (command, &words(&arguments)[..]) {
        ("play", []) => {
            let session = session.as_deref().map_or(Ok(0), number)?;
            play::play(edition, tape.as_deref(), session)
        }
        ("make", [folder, count, seed]) => {
            let list = list.as_deref().map(Path::new);
            generator::make(edition, Path::new(folder), number(count)?, number(seed)?, list)
                .map_err(|error| format!("{folder}: {error}"))
        }
        (command, words) => run_plain(edition, command, words),
    }
}

/// Those without options.
fn run_plain(edition: Edition, command: &str, words: &[&str]) -> Outcome {
    match (command, words) {
        ("sample", [name]) => samples::print(name),
        ("objects", []) => objects::read_objects(),
        ("write", []) => objects::write_objects(),
        ("fill", []) => objects::fill_lists(false),
        ("fill", ["counted"]) => objects::fill_lists(true),
        ("answers", []) => answers::read_answers(edition),
        ("atr", []) => resets::read_resets(),
        ("t0", []) => exchanges::run_exchanges(false),
        ("t0", ["handed"]) => exchanges::run_exchanges(true),
        ("recover", []) => tapes::recover_tape(edition, None),
        ("recover", [file]) => tapes::recover_tape(edition, Some(file)),
        ("make-mixture", [name, folder, count, seed]) => {
            let mixture = Mixture::named(name).ok_or(USAGE)?;
            generator::make_mixture(mixture, Path::new(folder), number(count)?, number(seed)?)
                .map_err(|error| format!("{folder}: {error}"))
        }
        ("dress-tape", [from, to, seed]) => generator::dress_tape(edition, from, to, number(seed)?),
        ("dress-script", [file, seed]) => generator::dress_script(edition, file, number(seed)?),
        (command, [file]) => find(CHECKS, command).ok_or(USAGE)?(edition, file),
        (command, [count, seed]) => {
            find(MAKERS, command).ok_or(USAGE)?(edition, number(count)?, number(seed)?);
            Ok(())
        }
        _ => Err(USAGE.to_string()),
    }
}

/// The one subcommand that can end without a message and yet not well.
fn dress(mut arguments: Vec<String>) -> Result<ExitCode, String> {
    let edition = edition("dress", &mut arguments);
    let [folder, count, seed] = &arguments[..] else { return Err(USAGE.to_string()) };
    let (count, seed) = (number(count)?, number(seed)?);
    let all_alike = generator::make_dressed(edition, Path::new(folder), count, seed)
        .map_err(|error| format!("{folder}: {error}"))?;
    Ok(if all_alike { ExitCode::SUCCESS } else { ExitCode::from(1) })
}

fn main() -> ExitCode {
    let mut arguments = std::env::args().skip(1);
    let ended = match (arguments.next(), arguments.collect::<Vec<_>>()) {
        (None, _) => Err(USAGE.to_string()),
        (Some(command), rest) if command == "dress" => dress(rest),
        (Some(command), rest) => run(&command, rest).map(|()| ExitCode::SUCCESS),
    };
    ended.unwrap_or_else(|message| {
        eprintln!("{message}");
        ExitCode::from(2)
    })
}
