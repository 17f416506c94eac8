//! Tests of one end of T=1, by the sentences of 000 and of 02, R-10.

mod cards;

use super::block::Topic;
use super::*;
use crate::hex;

/// An end that is driven by hexadecimal text and answers with text.
struct Bench {
    end: End,
}

impl Bench {
    fn new(role: Role, ifs_out: usize, ifs_in: usize) -> Bench {
        Bench { end: End::new(role, ifs_out, ifs_in) }
    }

    fn step(&mut self, event: Event) -> String {
        let (end, outcome) = self.end.clone().step(&event);
        self.end = end;
        let message = outcome.message.map(|message| format!("({})", hex::text(&message)));
        let send = outcome.send.map(|block| hex::text(&block));
        let words = [outcome.end, outcome.refusal].into_iter().flatten().map(str::to_string);
        send.into_iter().chain(message).chain(words).collect::<Vec<_>>().join(" ")
    }

    fn block(&mut self, text: &str) -> String {
        self.step(Event::Block(hex::bytes(text).unwrap()))
    }

    fn send(&mut self, text: &str) -> String {
        self.step(Event::Send(hex::bytes(text).unwrap()))
    }
}

/// A terminal that may send commands.
fn idle(ifs_out: usize) -> Bench {
    let mut bench = Bench::new(Role::Terminal, ifs_out, 254);
    assert_eq!(bench.step(Event::Hello), "00C101FE3E");
    assert_eq!(bench.block("00E101FE1E"), "");
    assert_eq!(bench.end.phase, Phase::Idle);
    bench
}

/// A card that has its first block behind it.
fn listening(ifs_in: usize) -> Bench {
    let mut bench = Bench::new(Role::Card, 32, ifs_in);
    assert_eq!(bench.block("00C101FE3E"), "00E101FE1E");
    assert_eq!(bench.end.ifs_out, 254);
    bench
}

/// A terminal that has sent one block and waits.
fn waiting() -> Bench {
    let mut bench = idle(32);
    assert_eq!(bench.send("00B2010C00"), "00000500B2010C00BA");
    bench
}

const BAD_CHECK: &str = "00800000";

#[test]
fn commands_and_answers_in_turn() {
    let mut bench = waiting();
    assert_eq!(bench.block("000002900092"), "(9000)");
    assert_eq!((bench.end.ns, bench.end.nr), (1, 1));
    assert_eq!(bench.send("00B2020C00"), "00400500B2020C00F9");
    assert_eq!(bench.block("0040026A82AA"), "(6A82)");
    assert_eq!((bench.end.ns, bench.end.nr), (0, 0));
}

#[test]
fn a_command_in_a_chain() {
    let mut bench = idle(2);
    assert_eq!(bench.send("0102030405"), "0020020102 21".replace(' ', ""));
    assert_eq!(bench.block("00900090"), "0060020304 65".replace(' ', ""));
    // Its number alone tells: the error bits are ignored.
    assert_eq!(bench.block("008F008F"), "00000105 04".replace(' ', ""));
    assert_eq!(bench.end.phase, Phase::Wait);
}

#[test]
fn an_answer_in_a_chain() {
    let mut bench = waiting();
    assert_eq!(bench.block("0020010120"), "00900090");
    assert_eq!(bench.block("0060010263"), "00800080");
    assert_eq!(bench.block("000002900092"), "(01029000)");
}

#[test]
fn the_first_block_until_it_is_answered() {
    for wrong in ["00E10120C0", "00C10120E0", "00820082", BAD_CHECK, "000002900092", "00C30101C3"] {
        let mut bench = Bench::new(Role::Terminal, 32, 254);
        bench.step(Event::Hello);
        assert_eq!(bench.block(wrong), "00C101FE3E", "{wrong}");
        assert_eq!(bench.block(wrong), "00C101FE3E", "{wrong}");
        assert_eq!(bench.block(wrong), "LIMIT", "{wrong}");
        assert_eq!(bench.block(wrong), "CLOSED", "{wrong}");
    }
    let mut bench = Bench::new(Role::Terminal, 32, 254);
    bench.step(Event::Hello);
    assert_eq!(bench.block("00C200C2"), "ABORT");
}

#[test]
fn events_out_of_turn() {
    let mut bench = Bench::new(Role::Terminal, 32, 254);
    assert_eq!(bench.send("00"), "NOT-DUE");
    assert_eq!(bench.step(Event::Silence), "NOT-DUE");
    assert_eq!(bench.block("00E101FE1E"), "NOT-DUE");
    let mut bench = idle(32);
    let before = bench.end.clone();
    assert_eq!(bench.step(Event::Hello), "NOT-DUE");
    assert_eq!(bench.step(Event::Ask(Topic::Wtx, 1)), "NOT-DUE");
    assert_eq!(bench.block("00820082"), "NOT-DUE");
    assert_eq!(bench.step(Event::Silence), "NOT-DUE");
    assert_eq!(bench.end, before);
    let mut bench = waiting();
    assert_eq!(bench.send("00"), "NOT-DUE");
    assert_eq!(bench.step(Event::Silence), "SILENCE");
    assert_eq!(bench.step(Event::Silence), "CLOSED");
    let mut bench = listening(32);
    assert_eq!(bench.send("9000"), "NOT-DUE");
    assert_eq!(bench.step(Event::Hello), "NOT-DUE");
}

#[test]
fn invalid_blocks_are_answered_three_times() {
    let mut bench = waiting();
    assert_eq!(bench.block(BAD_CHECK), "00810081");
    // The block goes out again as it was, whatever is wrong now.
    assert_eq!(bench.block("0000"), "00810081");
    assert_eq!(bench.block("21800000"), "00810081");
    assert_eq!(bench.block("0000"), "LIMIT");
    let mut bench = waiting();
    assert_eq!(bench.block("0000"), "00820082");
    assert_eq!(bench.block("0000"), "00820082");
    // A valid block between starts anew.
    assert_eq!(bench.block("00C30105C7"), "00E30105E7");
    for _ in 0..3 {
        assert_eq!(bench.block(BAD_CHECK), "00810081");
    }
    assert_eq!(bench.block(BAD_CHECK), "LIMIT");
}

#[test]
fn an_acknowledgement_counts_among_the_three() {
    let mut bench = waiting();
    assert_eq!(bench.block("0020010120"), "00900090");
    // Old number: a protocol error while a chain comes in.
    assert_eq!(bench.block("0020010120"), "00900090");
    assert_eq!(bench.block("00820082"), "00900090");
    assert_eq!(bench.block(BAD_CHECK), "LIMIT");
}

#[test]
fn one_block_three_times() {
    let sent = "00000500B2010C00BA";
    let mut bench = waiting();
    assert_eq!(bench.block("00810081"), sent);
    assert_eq!(bench.block(BAD_CHECK), "00810081");
    assert_eq!(bench.block("00C30101C3"), "00E30101E3");
    assert_eq!(bench.block("00820082"), sent);
    assert_eq!(bench.block("00820082"), "LIMIT");
    // In a chain the next block has its own three.
    let mut bench = idle(1);
    assert_eq!(bench.send("0102"), "0020010120");
    assert_eq!(bench.block("00800080"), "0020010120");
    assert_eq!(bench.block("00800080"), "0020010120");
    assert_eq!(bench.block("00900090"), "0040010243");
    assert_eq!(bench.block("00900090"), "0040010243");
    assert_eq!(bench.block("00900090"), "0040010243");
    assert_eq!(bench.block("00900090"), "LIMIT");
}

#[test]
fn blocks_that_the_state_does_not_allow() {
    let replies = |text: &str| waiting().block(text);
    // Old number, an R-block beyond the last block, responses not asked for,
    // resynchronisation either way, and IFS out of range.
    for text in ["0040010243", "00900090", "00E101FE1E", "00E30101E3", "00C000C0", "00E000E0"] {
        assert_eq!(replies(text), "00820082", "{text}");
    }
    for text in ["00C1010FCF", "00C101FF3F", "00C10100C0", "00E200E2"] {
        assert_eq!(replies(text), "00820082", "{text}");
    }
    assert_eq!(replies("00C200C2"), "ABORT");
    assert_eq!(replies("00C30100C2"), "00E30100E2");
    // An I-block while we chain.
    let mut bench = idle(1);
    bench.send("0102");
    assert_eq!(bench.block("0000010100"), "00820082");
    assert_eq!(bench.block("00900090"), "0040010243");
}

#[test]
fn another_size_holds_for_blocks_not_yet_sent() {
    let mut bench = idle(2);
    let message = (1..=40).map(|byte| format!("{byte:02X}")).collect::<String>();
    let first = bench.send(&message);
    assert!(first.starts_with("002002"));
    assert_eq!(bench.block("00C10110D0"), "00E10110F0");
    assert_eq!(bench.end.ifs_out, 16);
    assert_eq!(bench.block("00800080"), first);
    assert!(bench.block("00900090").starts_with("006010"));
    assert!(bench.block("00800080").starts_with("002010"));
    assert!(bench.block("00900090").starts_with("004006"));
}

/// 02, R-10: what one end cuts into blocks the other receives, for every IFS.
#[test]
fn two_ends_of_an_exchange() {
    let command: Vec<u8> = (0..=255).chain(0..5).collect();
    for ifs in 1..=254 {
        let mut card = listening(ifs).end;
        let mut terminal = idle(ifs).end;
        let (next, mut outcome) = terminal.step(&Event::Send(command.clone()));
        terminal = next;
        let received = loop {
            let block = outcome.send.expect("a block of the terminal");
            let (next, answered) = card.step(&Event::Block(block));
            card = next;
            if let Some(message) = answered.message {
                break message;
            }
            let block = answered.send.expect("a block of the card");
            let (next, sent) = terminal.step(&Event::Block(block));
            (terminal, outcome) = (next, sent);
        };
        assert_eq!(received, command, "{ifs}");
    }
}
