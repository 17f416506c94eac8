use super::*;
use crate::bench::sample;

/// All means, none, and each alone.
const ALL: u8 = 0xE0;
const OFFLINE: u8 = 0x80;
const ONLINE: u8 = 0x40;
const SIGNATURE: u8 = 0x20;

/// A START with some bytes changed.
fn terminal(changes: &[(usize, u8)]) -> Terminal {
    let mut bytes = sample();
    for &(at, value) in changes {
        bytes[at] = value;
    }
    Terminal::read(&bytes).unwrap()
}

/// TVR byte 3 of a list with the amounts X and Y.
fn limited(t: &Terminal, x: u32, y: u32, currency: Option<&[u8]>, rules: &[u8], r: &[u8]) -> u8 {
    let list = [&x.to_be_bytes()[..], &y.to_be_bytes(), rules].concat();
    assert!(is_verification_list(&list) && are_results(&list, r));
    Verification { terminal: t, list: &list, currency }.outcome(r)
}

/// The same where neither amounts nor currency matter.
fn with(means: u8, rules: &[u8], results: &[u8]) -> u8 {
    limited(&terminal(&[(75, means)]), 0, 0, None, rules, results)
}

/// Whether a rule of 'no verification' is tried under the condition.
fn tried(t: &Terminal, condition: u8) -> bool {
    limited(t, 0, 0, None, &[0x1F, condition], &[0]) == 0
}

#[test]
fn sizes_of_lists_and_results() {
    for size in 0..40 {
        assert_eq!(is_verification_list(&vec![0; size]), size >= 8 && size % 2 == 0, "{size}");
    }
    assert_eq!([8, 10, 12, 250].map(|size| rule_count(&vec![0; size])), [0, 1, 2, 121]);
    assert!(are_results(&[0; 8], &[]) && !are_results(&[0; 8], &[0]));
    let two = [0; 12];
    assert!(are_results(&two, &[0, 4]) && are_results(&two, &[4, 1]));
    assert!(!are_results(&two, &[0]) && !are_results(&two, &[0, 0, 0]) && !are_results(&two, &[]));
    assert!(!are_results(&two, &[5, 0]) && !are_results(&two, &[0, 5]));
    assert!(!are_results(&two, &[0, 255]));
}

#[test]
fn a_list_without_rules_is_exhausted_at_once() {
    assert_eq!(with(ALL, &[], &[]), 0x80);
}

#[test]
fn results_of_each_method() {
    // What the results 0 to 4 come to, with all means.
    for (method, want) in [
        (0x00, [0x80; 5]),
        (0x01, [0x80, 0x00, 0x90, 0x88, 0xA0]),
        (0x02, [0x80, 0x04, 0x90, 0x88, 0xA0]),
        (0x03, [0x80, 0x00, 0x90, 0x88, 0xA0]),
        (0x1E, [0x80, 0x00, 0x80, 0x80, 0x80]),
        (0x1F, [0x00; 5]),
        (0x04, [0xC0; 5]),
        (0x05, [0xC0; 5]),
        (0x1D, [0xC0; 5]),
        (0x20, [0xC0; 5]),
        (0x3F, [0xC0; 5]),
    ] {
        assert_eq!([0, 1, 2, 3, 4].map(|r| with(ALL, &[method, 0], &[r])), want, "{method:02X}");
    }
}

#[test]
fn methods_without_their_means() {
    for result in 0..5 {
        for (method, lacking, want) in [
            (0x01, !OFFLINE, 0x90),
            (0x02, !ONLINE, 0x90),
            (0x03, !OFFLINE, 0x90),
            (0x03, 0, 0x90),
            (0x1E, !SIGNATURE, 0x80),
            (0x00, 0, 0x80),
            (0x1F, 0, 0x00),
            (0x10, 0, 0xC0),
        ] {
            assert_eq!(with(lacking, &[method, 0], &[result]), want, "{method:02X} {result}");
        }
    }
    // The PIN's outcome comes first; then there is no signature.
    let pin_alone = [0, 1, 2, 3, 4].map(|r| with(!SIGNATURE, &[0x03, 0], &[r]));
    assert_eq!(pin_alone, [0x80, 0x80, 0x90, 0x88, 0xA0]);
    // The other bits of the capabilities mean nothing.
    for other in [0x1F, 0x00] {
        assert_eq!(with(OFFLINE | other, &[0x01, 0], &[1]), 0x00);
        assert_eq!(with(ONLINE | other, &[0x02, 0], &[1]), 0x04);
        assert_eq!(with(SIGNATURE | other, &[0x1E, 0], &[1]), 0x00);
    }
    let elsewhere = terminal(&[(74, 0xFF), (75, 0), (76, 0xFF)]);
    assert_eq!(limited(&elsewhere, 0, 0, None, &[0x01, 0], &[1]), 0x90);
}

#[test]
fn the_method_is_in_six_bits() {
    for method in [0x00, 0x01, 0x02, 0x03, 0x1E, 0x1F, 0x07, 0x3E] {
        for result in 0..5 {
            let plain = with(ALL, &[method, 0], &[result]);
            assert_eq!(with(ALL, &[method | 0x80, 0], &[result]), plain);
            // Alone in the list it makes no difference that one might go on.
            assert_eq!(with(ALL, &[method | 0x40, 0], &[result]), plain);
        }
    }
}

#[test]
fn going_on_after_a_failure() {
    // Behind the first rule stands 'no verification'.
    let then = |first: u8, result: u8| with(ALL, &[first, 0, 0x1F, 0], &[result, 0]);
    assert_eq!((then(0x00, 1), then(0x40, 1)), (0x80, 0x00));
    assert_eq!((then(0x01, 0), then(0x41, 0)), (0x80, 0x00));
    assert_eq!((then(0x02, 3), then(0x42, 3)), (0x88, 0x08));
    assert_eq!((then(0x03, 4), then(0x43, 4)), (0xA0, 0x20));
    assert_eq!((then(0x1E, 2), then(0x5E, 2)), (0x80, 0x00));
    assert_eq!((then(0x06, 1), then(0x46, 1)), (0xC0, 0x40));
    assert_eq!((then(0x81, 2), then(0xC1, 2)), (0x90, 0x10));
}

#[test]
fn success_ends_it_and_earlier_bits_stay() {
    let rules = [0x41, 0, 0x42, 0, 0x77, 0, 0x5E, 0, 0x42, 0, 0x00, 0];
    assert_eq!(with(ALL, &rules, &[2, 3, 1, 0, 1, 1]), 0x5C);
    assert_eq!(with(ALL, &rules, &[2, 4, 1, 1, 1, 1]), 0x70);
    assert_eq!(with(ALL, &rules, &[1, 4, 4, 4, 4, 4]), 0x00);
    assert_eq!(with(ALL, &rules, &[0, 0, 0, 0, 0, 0]), 0xC0);
    // 'Online PIN entered' only with a success.
    assert_eq!(with(!ONLINE, &[0x42, 0, 0x1F, 0], &[1, 0]), 0x10);
}

#[test]
fn rules_that_are_passed_over_set_nothing() {
    // An unknown method, a PIN without means and 'fail', never tried.
    for condition in [0x05, 0x0A, 0x0B, 0x10, 0x7F, 0x80, 0xFF] {
        let t = terminal(&[(75, 0)]);
        assert!(!tried(&t, condition), "{condition:02X}");
        let rules = [0x07, condition, 0x01, condition, 0x00, condition, 0x1F, 0];
        assert_eq!(limited(&t, 0, 0, None, &rules, &[1, 1, 1, 0]), 0x00);
        let rules = [0x1F, condition];
        assert_eq!(limited(&t, 0, 0, None, &rules, &[1]), 0x80);
    }
    assert!(tried(&terminal(&[]), 0x00));
}

#[test]
fn cash_and_cashback() {
    // 9C stands at 20, 9F03 at 7 to 12.
    for (changes, cash) in [
        (&[][..], false),
        (&[(20, 0x01)], true),
        (&[(20, 0x09)], false),
        (&[(20, 0x10)], false),
        (&[(20, 0x11)], false),
        (&[(12, 0x01)], true),
        (&[(7, 0x10)], true),
        (&[(20, 0x01), (9, 0x99)], true),
        (&[(20, 0x20), (12, 0x90)], true),
    ] {
        let t = terminal(changes);
        assert_eq!((tried(&t, 0x01), tried(&t, 0x02)), (cash, !cash), "{changes:?}");
    }
}

/// Which combinations of offline PIN, online PIN and signature support a method.
type Support = (u8, fn(u8) -> bool);

#[test]
fn supported_or_not() {
    let supports: [Support; 8] = [
        (0x00, |_| true),
        (0x01, |means| means & OFFLINE != 0),
        (0x02, |means| means & ONLINE != 0),
        (0x03, |means| means & OFFLINE != 0 && means & SIGNATURE != 0),
        (0x1E, |means| means & SIGNATURE != 0),
        (0x1F, |_| true),
        (0x04, |_| false),
        (0x3F, |_| false),
    ];
    for means in (0..8).map(|bits| bits << 5) {
        for (method, supported) in supports {
            let t = terminal(&[(75, means)]);
            let verification = Verification { terminal: &t, list: &[0; 8], currency: None };
            let is = |condition| verification.is_satisfied(condition, Method::of(method));
            assert_eq!((is(3), is(4)), (supported(means), !supported(means)), "{method:02X}");
        }
    }
    // Tried because it is not supported, and hence without success.
    assert_eq!(with(0, &[0x01, 4], &[1]), 0x90);
    assert_eq!(with(OFFLINE, &[0x03, 4], &[1]), 0x80);
    assert_eq!(with(0, &[0x1E, 4], &[1]), 0x80);
    assert_eq!(with(ALL, &[0x22, 4], &[1]), 0xC0);
    // And passed over for the same reason.
    assert_eq!(with(ALL, &[0x22, 3, 0x1F, 0], &[1, 1]), 0x00);
    assert_eq!(with(0, &[0x01, 3, 0x1E, 3, 0x5F, 4, 0x00, 4], &[1, 1, 1, 1]), 0x80);
}

/// Which of the conditions 06 to 09 are satisfied.
fn by_amount(t: &Terminal, x: u32, y: u32, currency: Option<&[u8]>) -> [bool; 4] {
    [6, 7, 8, 9].map(|code| limited(t, x, y, currency, &[0x1F, code], &[0]) == 0)
}

#[test]
fn under_and_over() {
    // The amount is 7500, the currency 0978.
    let t = terminal(&[(15, 0x09), (16, 0x78)]);
    let own: Option<&[u8]> = Some(&[0x09, 0x78]);
    assert_eq!(by_amount(&t, 7500, 7500, own), [false; 4]);
    assert_eq!(by_amount(&t, 7501, 7499, own), [true, false, false, true]);
    assert_eq!(by_amount(&t, 7499, 7501, own), [false, true, true, false]);
    assert_eq!(by_amount(&t, 0, u32::MAX, own), [false, true, true, false]);
    // Bytes, not digits: '00007500' is more than 7500.
    assert_eq!(by_amount(&t, 0x7500, 0x7500, own), [true, false, true, false]);
}

#[test]
fn limits_are_unsigned_and_amounts_may_be_higher() {
    let own: Option<&[u8]> = Some(&[0, 0]);
    // X is 4294967295, Y one less.
    for (amount, want) in [
        ([0x00, 0x42, 0x94, 0x96, 0x72, 0x93], [true, false, true, false]),
        ([0x00, 0x42, 0x94, 0x96, 0x72, 0x94], [true, false, false, false]),
        ([0x00, 0x42, 0x94, 0x96, 0x72, 0x95], [false, false, false, true]),
        ([0x00, 0x42, 0x94, 0x96, 0x72, 0x96], [false, true, false, true]),
        ([0x99, 0x99, 0x99, 0x99, 0x99, 0x99], [false, true, false, true]),
    ] {
        let changes: Vec<(usize, u8)> = (1..7).zip(amount).collect();
        let got = by_amount(&terminal(&changes), u32::MAX, u32::MAX - 1, own);
        assert_eq!(got, want, "{amount:02X?}");
    }
    // 9F03 does not count.
    let t = terminal(&[(5, 0), (6, 0x10), (12, 0x90)]);
    assert_eq!(by_amount(&t, 10, 11, own), [false, false, true, false]);
}

#[test]
fn the_currency_must_be_there_and_equal() {
    let t = terminal(&[(15, 0x09), (16, 0x78)]);
    for other in [None, Some(&[0x09, 0x79][..]), Some(&[0x08, 0x78]), Some(&[0x78, 0x09])] {
        assert_eq!(by_amount(&t, 0, u32::MAX, other), [false; 4]);
        assert_eq!(by_amount(&t, u32::MAX, 0, other), [false; 4]);
        let passed = limited(&t, 9999, 0, other, &[0x07, 6, 0x01, 9, 0x1F, 0], &[0, 0, 0]);
        assert_eq!(passed, 0x00);
    }
}
