use super::*;
use crate::bench::sample;

fn terminal(changes: &[(usize, u8)]) -> Terminal {
    let mut b = sample();
    for &(at, value) in changes {
        b[at] = value;
    }
    Terminal::read(&b).unwrap()
}

fn bits(
    t: &Terminal,
    aip: u8,
    expiry: &[u8],
    effective: Option<&[u8]>,
    version: Option<&[u8]>,
) -> (Tvr, Tsi) {
    let (mut tvr, mut tsi) = ([0; 5], [0; 2]);
    let facts = Facts { aip: [aip, 0], expiry, effective, version };
    judge_facts(t, &facts, &mut tvr, &mut tsi);
    (tvr, tsi)
}

const DAY: [u8; 3] = [0x26, 0x07, 0x15];
const BEFORE: [u8; 3] = [0x26, 0x07, 0x14];
const AFTER: [u8; 3] = [0x26, 0x08, 0x01];

#[test]
fn case_j_biased_selection() {
    assert!(is_selected(&terminal(&[(31, 40)])));
    assert!(!is_selected(&terminal(&[(31, 41)])));
}

#[test]
fn case_k_nothing_is_rounded() {
    assert!(!is_selected(&terminal(&[(31, 40), (5, 0x74), (6, 0x99)])));
}

#[test]
fn selection_below_the_threshold_and_at_it() {
    let below = [(5, 0x49), (6, 0x99)];
    assert!(is_selected(&terminal(&[below[0], below[1], (31, 10)])));
    assert!(!is_selected(&terminal(&[below[0], below[1], (31, 11)])));
    assert!(is_selected(&terminal(&[(5, 0x50), (31, 10)])));
    assert!(!is_selected(&terminal(&[(5, 0x50), (31, 11)])));
    // Target above the random number: a negative left side.
    assert!(is_selected(&terminal(&[(5, 0x50), (31, 1), (32, 70)])));
}

#[test]
fn facts_without_risk_management() {
    let t = terminal(&[(40, 1), (41, 2)]);
    assert_eq!(bits(&t, 0xF7, &DAY, Some(&DAY), Some(&[1, 2])), ([0x80, 0, 0, 0, 0], [0, 0]));
    assert_eq!(bits(&t, 0, &BEFORE, Some(&BEFORE), None).0[1], 0x40);
    assert_eq!(bits(&t, 0, &AFTER, Some(&AFTER), None).0[1], 0x20);
    assert_eq!(bits(&t, 0, &DAY, None, Some(&[1, 3])).0[1], 0x80);
}

#[test]
fn the_year_50_rule() {
    // Today, the card's date, and the bits it sets as 5F24 and as 5F25.
    for (today, date, want) in [
        ([0x50, 0x01, 0x01], [0x49, 0x12, 0x31], 0x20),
        ([0x49, 0x12, 0x31], [0x50, 0x01, 0x01], 0x40),
        ([0x20, 0x06, 0x01], [0x99, 0x12, 0x31], 0x40),
        ([0x99, 0x12, 0x31], [0x00, 0x01, 0x01], 0x20),
        ([0x00, 0x01, 0x01], [0x99, 0x12, 0x31], 0x40),
        ([0x50, 0x01, 0x01], [0x50, 0x01, 0x01], 0x00),
        ([0x49, 0x12, 0x30], [0x49, 0x12, 0x31], 0x20),
        ([0x50, 0x01, 0x02], [0x50, 0x01, 0x01], 0x40),
        ([0x23, 0x03, 0x01], [0x23, 0x02, 0x31], 0x40),
    ] {
        let t = terminal(&[(17, today[0]), (18, today[1]), (19, today[2])]);
        assert_eq!(bits(&t, 0, &date, Some(&date), None).0[1], want, "{today:?} {date:?}");
    }
}

#[test]
fn floor_and_selection_by_type() {
    let at_floor = [(4, 1), (5, 0)];
    for kind in 0..3 {
        let t = terminal(&[at_floor[0], at_floor[1], (0, kind)]);
        assert_eq!(bits(&t, 0x08, &DAY, None, None), ([0x80, 0, 0, 0x80, 0], [0x08, 0]));
        let t = terminal(&[(0, kind)]);
        let selected = if kind == 2 { 0x10 } else { 0 };
        assert_eq!(bits(&t, 0x08, &DAY, None, None), ([0x80, 0, 0, selected, 0], [0x08, 0]));
    }
}

#[test]
fn case_l_first_request_with_zero_codes() {
    let zeros: Option<&[u8]> = Some(&[0; 5]);
    let codes = IssuerCodes { denial: zeros, online: zeros, default: zeros };
    let wanted = [Cryptogram::Tc, Cryptogram::Arqc, Cryptogram::Tc];
    for (kind, want) in (0..3).zip(wanted) {
        let t = terminal(&[(0, kind)]);
        assert_eq!(first_request(&t, &codes, &[0x80, 0, 0, 0, 0]), want);
    }
}

#[test]
fn absent_codes_and_denial() {
    let tvr = [0x80, 0, 0, 0, 0];
    let none = IssuerCodes::default();
    let wanted = [Cryptogram::Aac, Cryptogram::Arqc, Cryptogram::Arqc];
    for (kind, want) in (0..3).zip(wanted) {
        assert_eq!(first_request(&terminal(&[(0, kind)]), &none, &tvr), want);
        let denying = terminal(&[(0, kind), (42, 0x80)]);
        assert_eq!(first_request(&denying, &none, &tvr), Cryptogram::Aac);
    }
}

#[test]
fn second_requests() {
    let tvr = [0x80, 0, 0, 0, 0];
    let zeros: Option<&[u8]> = Some(&[0; 5]);
    let mild = IssuerCodes { default: zeros, ..IssuerCodes::default() };
    let strict = IssuerCodes::default();
    let both = terminal(&[]);
    let online = terminal(&[(0, 1)]);
    let ask = |t, c, h| second_request(t, c, &tvr, h);
    assert_eq!(ask(&both, &strict, Host::Approve([1, 2])), (Cryptogram::Tc, [1, 2]));
    assert_eq!(ask(&both, &mild, Host::Decline([0, 0])), (Cryptogram::Aac, [0, 0]));
    assert_eq!(ask(&both, &mild, Host::Unable), (Cryptogram::Tc, [0x59, 0x33]));
    assert_eq!(ask(&both, &strict, Host::Unable), (Cryptogram::Aac, [0x5A, 0x33]));
    assert_eq!(ask(&online, &mild, Host::Unable), (Cryptogram::Aac, [0x5A, 0x33]));
}

#[test]
fn hosts() {
    assert_eq!(Host::read(&[1, 0, 0]), Some(Host::Approve([0, 0])));
    assert_eq!(Host::read(&[3, 0, 0]), Some(Host::Unable));
    for bad in [&[3, 0, 1][..], &[3, 1, 0], &[0, 0, 0], &[4, 0, 0], &[1, 0], &[1, 0, 0, 0], &[]] {
        assert_eq!(Host::read(bad), None);
    }
}

#[test]
fn allowed_answers() {
    use Cryptogram::*;
    let first: Vec<bool> =
        [Tc, Arqc, Aac].iter().flat_map(|&a| [Tc, Arqc, Aac].map(|b| first_allows(a, b))).collect();
    assert_eq!(first, [true, true, true, false, true, true, false, false, true]);
    assert!(second_allows(Tc, Tc) && second_allows(Tc, Aac) && second_allows(Aac, Aac));
    assert!(!second_allows(Aac, Tc) && !second_allows(Tc, Arqc) && !second_allows(Aac, Arqc));
}
