//! Tests of the card's end.

use super::*;

#[test]
fn a_card_sends_twice() {
    let mut bench = listening(32);
    assert_eq!(bench.block(BAD_CHECK), "00810081");
    assert_eq!(bench.block(BAD_CHECK), "00810081");
    assert_eq!(bench.block(BAD_CHECK), "LIMIT");
    let mut bench = listening(32);
    assert_eq!(bench.block("0000010706"), "(07)");
    assert_eq!(bench.block("00820082"), "NOT-DUE");
    assert_eq!(bench.send("9000"), "000002900092");
    assert_eq!(bench.block("00820082"), "000002900092");
    assert_eq!(bench.block("00820082"), "LIMIT");
}

/// A card that has a command and may ask.
fn busy() -> Bench {
    let mut bench = listening(32);
    assert_eq!(bench.block("0000010706"), "(07)");
    bench
}

#[test]
fn a_card_asks() {
    let mut bench = busy();
    assert_eq!(bench.step(Event::Ask(Topic::Wtx, 5)), "00C30105C7");
    assert_eq!(bench.block("00E30104E6"), "00C30105C7");
    assert_eq!(bench.block("00E30105E7"), "");
    assert_eq!(bench.end.phase, Phase::Busy);
    let mut bench = busy();
    bench.step(Event::Ask(Topic::Wtx, 5));
    assert_eq!(bench.block("00C101FE3E"), "00C30105C7");
    assert_eq!(bench.block(BAD_CHECK), "LIMIT");
    let mut bench = busy();
    assert_eq!(bench.step(Event::Ask(Topic::Ifs, 64)), "00C1014080");
    assert_eq!(bench.block("00820082"), "00C1014080");
    assert_eq!(bench.block("00820082"), "00C1014080");
    assert_eq!(bench.block("00E10140A0"), "");
    assert_eq!(bench.end.ifs_in, 64);
}

/// 000, I-5.2.5.1: "After three unsuccessful attempts, it shall remain in
/// receive mode."
#[test]
fn a_card_that_has_asked_three_times_for_a_size() {
    let asked = || {
        let mut bench = busy();
        assert_eq!(bench.step(Event::Ask(Topic::Ifs, 64)), "00C1014080");
        assert_eq!(bench.block("00820082"), "00C1014080");
        assert_eq!(bench.block(BAD_CHECK), "00C1014080");
        bench
    };
    // Nothing goes out, whatever comes in: a bad check, other sizes, responses
    // to other requests, requests, R- and I-blocks, old and new.
    let mut bench = asked();
    let before = bench.end.clone();
    for text in ["00E10120C0", "00E30140A2", "00C101FE3E", "00C200C2", "00C000C0"] {
        assert_eq!(bench.block(text), "", "{text}");
    }
    for text in [BAD_CHECK, "", "00820082", "00900090", "0000010706", "0040010746"] {
        assert_eq!(bench.block(text), "", "{text}");
    }
    assert_eq!(bench.end, before);
    assert_eq!((bench.end.phase, bench.end.ifs_in), (Phase::Ask, 32));
    // Its answer is not due meanwhile, nor another request.
    assert_eq!(bench.send("9000"), "NOT-DUE");
    assert_eq!(bench.step(Event::Ask(Topic::Ifs, 64)), "NOT-DUE");
    assert_eq!(bench.block("00E10140A0"), "");
    assert_eq!((bench.end.phase, bench.end.ifs_in), (Phase::Busy, 64));
    assert_eq!(bench.send("9000"), "000002900092");
    // The next request has its own three.
    let mut bench = asked();
    assert_eq!(bench.block("00E10140A0"), "");
    assert_eq!(bench.step(Event::Ask(Topic::Ifs, 32)), "00C10120E0");
    assert_eq!(bench.block("00E10140A0"), "00C10120E0");
    assert_eq!(asked().step(Event::Silence), "SILENCE");
}

#[test]
fn requests_that_a_card_does_not_take() {
    for text in ["00C30101C3", "00C200C2", "00C000C0"] {
        assert_eq!(listening(32).block(text), "00820082", "{text}");
    }
    // More than its information field size.
    assert_eq!(listening(1).block("0000020102 01".replace(' ', "").as_str()), "00820082");
    assert_eq!(Bench::new(Role::Card, 254, 32).block(BAD_CHECK), "00810081");
}
