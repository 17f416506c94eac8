//! A session between its START and its end: what each event leads to.

use super::events::{Reply, OUT_OF_TURN};
use crate::answers::{
    read_cryptogram, read_options, read_select, CardData, Reason, BAD_LIST, MISSING, NOT_ALLOWED,
    RECORD_TAGS,
};
use crate::commands::{generate_command, options_command, record_command, select_command, FIRST};
use crate::decide::{
    first_allows, first_request, judge_facts, second_allows, second_request, Cryptogram, Facts,
    Host, IssuerCodes, Tsi, Tvr, CARD_RISK_DONE, VERIFICATION_DONE, VERIFICATION_SUPPORTED,
};
use crate::lists::{fill, Known};
use crate::terminal::{Kind, Terminal};
use crate::verify::{are_results, rule_count, Verification};

/// Outcomes, the first byte of a decision.
const APPROVED: u8 = 1;
const DECLINED: u8 = 2;
const TERMINATED: u8 = 3;

/// Objects of the records that no object list can draw on.
const NOT_FOR_LISTS: [u16; 4] = [0x8C, 0x8D, 0x8E, 0x9F42];

#[derive(Clone, Debug)]
pub struct Running {
    terminal: Terminal,
    tvr: Tvr,
    tsi: Tsi,
    aip: Option<[u8; 2]>,
    records: Vec<[u8; 2]>,
    card: CardData,
    /// 8A, once the second request is being made.
    response: Option<[u8; 2]>,
    /// Entries of the lists filled so far that had no value (02, R-6).
    unsupplied: usize,
    due: Due,
}

/// The event that is due, and for an answer the command it belongs to.
#[derive(Clone, Copy, Debug, PartialEq, Eq)]
enum Due {
    Select,
    Options,
    Record(usize),
    Results,
    First(Cryptogram),
    Host,
    Second(Cryptogram),
}

impl Running {
    pub fn new(terminal: Terminal) -> Running {
        let card = CardData::new(terminal.capabilities().is_some());
        Running {
            terminal,
            tvr: [0; 5],
            tsi: [0; 2],
            aip: None,
            records: Vec::new(),
            card,
            response: None,
            unsupplied: 0,
            due: Due::Select,
        }
    }

    pub fn unsupplied(&self) -> usize {
        self.unsupplied
    }

    pub fn is_host_due(&self) -> bool {
        self.due == Due::Host
    }

    pub fn are_results_due(&self) -> bool {
        self.due == Due::Results
    }

    /// Whether the payload is one that the card's list can have.
    pub fn takes_results(&self, results: &[u8]) -> bool {
        self.card.get(0x8E).is_some_and(|list| are_results(list, results))
    }

    /// A card answer of any content, with the answer due.
    pub fn answer(&mut self, bytes: &[u8]) -> Reply {
        let reply = match self.due {
            Due::Select => self.after_select(bytes),
            Due::Options => self.after_options(bytes),
            Due::Record(at) => self.after_record(at, bytes),
            Due::First(asked) => self.after_first(asked, bytes),
            Due::Second(asked) => self.after_second(asked, bytes),
            Due::Host | Due::Results => Ok(Reply::Refused(OUT_OF_TURN)),
        };
        self.or_terminated(reply)
    }

    fn or_terminated(&self, reply: Result<Reply, Reason>) -> Reply {
        reply.unwrap_or_else(|reason| self.decision(TERMINATED, reason))
    }

    fn after_select(&mut self, bytes: &[u8]) -> Result<Reply, Reason> {
        let list = read_select(bytes, self.terminal.aid())?;
        self.options(&list.unwrap_or_default())
    }

    /// The application was chosen, and this is its 9F38 (02, R-12).
    pub fn selected(&mut self, list: &[u8]) -> Reply {
        let reply = self.options(list);
        self.or_terminated(reply)
    }

    /// GET PROCESSING OPTIONS; reason 9 if 9F38 is no good.
    fn options(&mut self, list: &[u8]) -> Result<Reply, Reason> {
        let data = self.filled(list)?;
        self.due = Due::Options;
        Ok(Reply::Command(options_command(&data)))
    }

    fn after_options(&mut self, bytes: &[u8]) -> Result<Reply, Reason> {
        let options = read_options(bytes)?;
        self.aip = Some(options.aip);
        self.records = options.records;
        Ok(self.ask_record(0))
    }

    fn after_record(&mut self, at: usize, bytes: &[u8]) -> Result<Reply, Reason> {
        self.card.take_record(bytes)?;
        if at + 1 < self.records.len() {
            return Ok(self.ask_record(at + 1));
        }
        if !self.card.is_complete() {
            return Err(MISSING);
        }
        self.set_facts();
        match self.verification_list() {
            Some(list) => {
                let results = rule_count(list);
                self.due = Due::Results;
                Ok(Reply::ResultsDue(results))
            }
            None => self.first(),
        }
    }

    /// 8E, where the card supports verification and has the list. Under a
    /// START of the former size the list is never read (02, R-7).
    fn verification_list(&self) -> Option<&[u8]> {
        let supported = self.aip.is_some_and(|aip| aip[0] & VERIFICATION_SUPPORTED != 0);
        self.card.get(0x8E).filter(|_| supported)
    }

    /// Results of the right shape, with the results due.
    pub fn results(&mut self, results: &[u8]) -> Reply {
        let verification = Verification {
            terminal: &self.terminal,
            list: self.card.get(0x8E).unwrap_or_default(),
            currency: self.card.get(0x9F42),
        };
        self.tvr[2] |= verification.outcome(results);
        self.tsi[0] |= VERIFICATION_DONE;
        let reply = self.first();
        self.or_terminated(reply)
    }

    /// The first GENERATE AC; reason 9 if 8C is no good.
    fn first(&mut self) -> Result<Reply, Reason> {
        let asked = first_request(&self.terminal, &self.issuer_codes(), &self.tvr);
        let data = self.filled_from_card(0x8C)?;
        self.due = Due::First(asked);
        Ok(Reply::Command(generate_command(asked, &data)))
    }

    fn after_first(&mut self, asked: Cryptogram, bytes: &[u8]) -> Result<Reply, Reason> {
        let information = read_cryptogram(bytes)?;
        let answer = Cryptogram::answered(information)
            .filter(|&answer| first_allows(asked, answer))
            .ok_or(NOT_ALLOWED)?;
        self.tsi[0] |= CARD_RISK_DONE;
        Ok(match answer {
            Cryptogram::Tc => self.decision(APPROVED, 0),
            Cryptogram::Aac => self.decision(DECLINED, 0),
            // There is nobody to ask: goes on as if the issuer were out of reach.
            Cryptogram::Arqc if self.terminal.kind == Kind::OfflineOnly => {
                self.second(Host::Unable)
            }
            Cryptogram::Arqc => {
                self.due = Due::Host;
                Reply::HostDue
            }
        })
    }

    fn after_second(&mut self, asked: Cryptogram, bytes: &[u8]) -> Result<Reply, Reason> {
        let information = read_cryptogram(bytes)?;
        let answer = Cryptogram::answered(information)
            .filter(|&answer| second_allows(asked, answer))
            .ok_or(NOT_ALLOWED)?;
        let outcome = if answer == Cryptogram::Tc { APPROVED } else { DECLINED };
        Ok(self.decision(outcome, 0))
    }

    /// The second GENERATE AC, or the end of the session if 8D is no good.
    pub fn second(&mut self, host: Host) -> Reply {
        let (asked, code) = second_request(&self.terminal, &self.issuer_codes(), &self.tvr, host);
        self.response = Some(code);
        match self.filled_from_card(0x8D) {
            Ok(data) => {
                self.due = Due::Second(asked);
                Reply::Command(generate_command(asked, &data))
            }
            Err(reason) => self.decision(TERMINATED, reason),
        }
    }

    pub fn select(&self) -> Vec<u8> {
        select_command(self.terminal.aid(), FIRST)
    }

    fn ask_record(&mut self, at: usize) -> Reply {
        self.due = Due::Record(at);
        let [record, reference] = self.records[at];
        Reply::Command(record_command(record, reference))
    }

    fn set_facts(&mut self) {
        let facts = Facts {
            aip: self.aip.unwrap_or_default(),
            expiry: self.card.get(0x5F24).unwrap_or_default(),
            effective: self.card.get(0x5F25),
            version: self.card.get(0x9F08),
        };
        judge_facts(&self.terminal, &facts, &mut self.tvr, &mut self.tsi);
    }

    fn issuer_codes(&self) -> IssuerCodes<'_> {
        IssuerCodes {
            default: self.card.get(0x9F0D),
            denial: self.card.get(0x9F0E),
            online: self.card.get(0x9F0F),
        }
    }

    /// The data for one of the two GENERATE AC lists.
    fn filled_from_card(&mut self, list: u16) -> Result<Vec<u8>, Reason> {
        let list = self.card.get(list).unwrap_or_default().to_vec();
        self.filled(&list)
    }

    /// The data for a list; what it had no value for joins the sum. A list
    /// that cannot be filled adds nothing.
    fn filled(&mut self, list: &[u8]) -> Result<Vec<u8>, Reason> {
        let filled = fill(list, &self.known()).ok_or(BAD_LIST)?;
        self.unsupplied += filled.unsupplied;
        Ok(filled.data)
    }

    /// Everything an object list can draw on at this moment.
    fn known(&self) -> Known<'_> {
        let mut known = Known::default();
        for (tag, value) in self.terminal.tagged() {
            known.add(tag, value);
        }
        known.add(0x95, &self.tvr);
        known.add(0x9B, &self.tsi);
        known.add_if(0x82, self.aip.as_ref().map(|v| &v[..]));
        known.add_if(0x8A, self.response.as_ref().map(|v| &v[..]));
        for tag in RECORD_TAGS.into_iter().filter(|tag| !NOT_FOR_LISTS.contains(tag)) {
            known.add_if(tag, self.card.get(tag));
        }
        known
    }

    fn decision(&self, outcome: u8, reason: Reason) -> Reply {
        decision(outcome, reason, self.tvr, self.tsi)
    }
}

fn decision(outcome: u8, reason: Reason, tvr: Tvr, tsi: Tsi) -> Reply {
    let mut decision = [0; 9];
    decision[0] = outcome;
    decision[1] = reason;
    decision[2..7].copy_from_slice(&tvr);
    decision[7..].copy_from_slice(&tsi);
    Reply::Decision(decision)
}

/// The end of a session in which no application was chosen: no bit is set
/// before the last record (02, R-12).
pub fn terminated(reason: Reason) -> Reply {
    decision(TERMINATED, reason, [0; 5], [0; 2])
}
