//! Entries with another payload.

use super::ending::{flip, on_payload, Ending};
use rules::hex;
use rules::tape::{ANSWER, COMMAND, DECISION, HOST};

pub fn payloads() -> Vec<Ending> {
    let mut all = vec![
        on_payload(COMMAND, "COMMAND with another bit", |p, r| flip(p, r)),
        on_payload(COMMAND, "COMMAND one byte longer", |p, _| p.push(0)),
        on_payload(COMMAND, "COMMAND one byte shorter", |p, _| {
            p.pop();
        }),
        on_payload(COMMAND, "COMMAND empty", |p, _| p.clear()),
        on_payload(ANSWER, "ANSWER with another bit", |p, r| flip(p, r)),
        on_payload(ANSWER, "ANSWER empty", |p, _| p.clear()),
        on_payload(ANSWER, "ANSWER of 496 bytes", |p, _| p.resize(496, 0)),
        on_payload(DECISION, "DECISION one byte longer", |p, _| p.push(0)),
        on_payload(DECISION, "DECISION one byte shorter", |p, _| {
            p.pop();
        }),
        on_payload(DECISION, "DECISION with another TVR bit", |p, r| flip(&mut p[2..7], r)),
        on_payload(DECISION, "DECISION with TVR cleared", |p, _| p[2..7].fill(0)),
        on_payload(DECISION, "DECISION with TSI b7 other", |p, _| p[7] ^= 0x40),
        on_payload(DECISION, "DECISION with TSI b6 other", |p, _| p[7] ^= 0x20),
        on_payload(DECISION, "DECISION with TSI b4 other", |p, _| p[7] ^= 0x08),
        on_payload(DECISION, "DECISION with 'data missing'", |p, _| p[2] |= 0x20),
        on_payload(DECISION, "DECISION approved", |p, _| p[..2].copy_from_slice(&[1, 0])),
        on_payload(DECISION, "DECISION declined", |p, _| p[..2].copy_from_slice(&[2, 0])),
        on_payload(DECISION, "DECISION of another reason", |p, r| p[1] = r.below(13) as u8),
    ];
    all.extend(decision_bytes());
    all.extend(hosts());
    all
}

/// Each byte of a DECISION by itself.
fn decision_bytes() -> Vec<Ending> {
    (0..9)
        .map(|at| {
            on_payload(DECISION, &format!("DECISION byte {at} other"), move |p, r| {
                flip(&mut p[at..at + 1], r);
            })
        })
        .collect()
}

/// HOST of every shape.
fn hosts() -> Vec<Ending> {
    let hosts: [&[u8]; 10] = [
        &[],
        &[1],
        &[1, 0],
        &[1, 0, 0, 0],
        &[0, 0, 0],
        &[4, 0, 0],
        &[3, 0, 1],
        &[3, 1, 0],
        &[3, 0],
        &[2, 9, 9],
    ];
    hosts
        .map(|host| {
            let label = format!("HOST is {}", hex::text_or_dash(host));
            on_payload(HOST, &label, |p, _| *p = host.to_vec())
        })
        .to_vec()
}
