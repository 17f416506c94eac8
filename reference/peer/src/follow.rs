//! The session in its own order, held against the entries of a readable tape.

use crate::answers::{
    cryptogram, options, record, selected, Reason, BAD_LIST, MISSING, NOT_ALLOWED,
};
use crate::decide::{first_request, second_request, set_facts, Cryptogram, Host, OFFLINE_ONLY};
use crate::known::{Known, ACCOUNT, EXPIRY, FIRST_LIST, METHODS, SECOND_LIST};
use crate::lists::{fill, LONGEST};
use crate::start::Start;
use crate::tape::{
    entry_of, Block, ANSWER, COMMAND, DECISION, HOST, RESULTS, SILENCE, START as START_KIND,
};
use crate::verify::outcome;
use crate::{Finding, Verdict};

/// Where a session ends, or the tape before it.
enum End {
    /// The outcome of a session that was decided.
    Decided(u8),
    Terminated(Reason),
    /// There is no other entry, or a silence closed.
    Cut,
    /// The entry last taken breaks the rules.
    Broken,
}

impl From<Reason> for End {
    fn from(reason: Reason) -> End {
        End::Terminated(reason)
    }
}

const APPROVED: u8 = 1;
const DECLINED: u8 = 2;
const TERMINATED: u8 = 3;

/// The entries, taken one by one.
struct Entries<'a> {
    blocks: &'a [Block],
    taken: usize,
    /// 02, R-6.
    zeros: usize,
    buffer: [u8; LONGEST],
}

impl<'a> Entries<'a> {
    #[inline(always)]
    fn next(&mut self) -> Result<(u8, &'a [u8]), End> {
        let block = self.blocks.get(self.taken).ok_or(End::Cut)?;
        self.taken += 1;
        Ok(entry_of(block))
    }

    /// The entry of this kind that is due.
    #[inline(always)]
    fn due(&mut self, kind: u8) -> Result<&'a [u8], End> {
        match self.next()? {
            (given, payload) if given == kind => Ok(payload),
            _ => Err(End::Broken),
        }
    }

    /// The answer to a command that is due.
    #[inline(always)]
    fn exchange(&mut self, command: &[u8]) -> Result<&'a [u8], End> {
        if self.due(COMMAND)? != command {
            return Err(End::Broken);
        }
        self.answer()
    }

    /// The same for the command in the buffer.
    #[inline(always)]
    fn exchange_buffer(&mut self, length: usize) -> Result<&'a [u8], End> {
        if *self.due(COMMAND)? != self.buffer[..length] {
            return Err(End::Broken);
        }
        self.answer()
    }

    #[inline(always)]
    fn answer(&mut self) -> Result<&'a [u8], End> {
        match self.next()? {
            (ANSWER, payload) => Ok(payload),
            (SILENCE, []) => Err(self.nothing_more(End::Cut)),
            _ => Err(End::Broken),
        }
    }

    /// The end, unless another entry follows, which may not.
    fn nothing_more(&mut self, end: End) -> End {
        match self.next() {
            Ok(_) => End::Broken,
            Err(_) => end,
        }
    }

    /// Fills a list into the buffer from a place on.
    fn fill(&mut self, list: &[u8], known: &Known, from: usize) -> Result<usize, Reason> {
        let (size, zeros) = fill(list, known, &mut self.buffer, from).ok_or(BAD_LIST)?;
        self.zeros += zeros;
        Ok(size)
    }

    /// The command GPO in the buffer: its length.
    fn put_options(&mut self, list: &[u8], known: &Known) -> Result<usize, Reason> {
        // Of the two forms of a length the short one is the rule.
        let size = self.fill(list, known, 7)?;
        let buffer = &mut self.buffer;
        let at = if size < 0x80 {
            buffer[..7].copy_from_slice(&[0x80, 0xA8, 0, 0, size as u8 + 2, 0x83, size as u8]);
            7
        } else {
            buffer.copy_within(7..7 + size, 8);
            let length = size as u8 + 3;
            buffer[..8].copy_from_slice(&[0x80, 0xA8, 0, 0, length, 0x83, 0x81, size as u8]);
            8
        };
        buffer[at + size] = 0;
        Ok(at + size + 1)
    }

    /// The command GENERATE AC in the buffer: its length.
    fn put_generate(
        &mut self,
        asked: Cryptogram,
        list: &[u8],
        known: &Known,
    ) -> Result<usize, Reason> {
        let size = self.fill(list, known, 5)?;
        let buffer = &mut self.buffer;
        buffer[..5].copy_from_slice(&[0x80, 0xAE, asked.parameter(), 0, size as u8]);
        if size == 0 {
            return Ok(5);
        }
        buffer[5 + size] = 0;
        Ok(size + 6)
    }

    /// The name is selected: 9F38. Here the selection of R-12 comes in, by the
    /// START that it has.
    fn select(&mut self, start: &Start<'a>) -> Result<&'a [u8], End> {
        let aid = start.aid();
        let buffer = &mut self.buffer;
        buffer[..5].copy_from_slice(&[0, 0xA4, 4, 0, aid.len() as u8]);
        buffer[5..5 + aid.len()].copy_from_slice(aid);
        buffer[5 + aid.len()] = 0;
        Ok(selected(self.exchange_buffer(6 + aid.len())?, aid)?)
    }

    /// All records that the AFL names.
    fn records(&mut self, locator: &[[u8; 4]], known: &mut Known<'a>) -> Result<(), End> {
        for &[file, first, last, _] in locator {
            for number in first..=last {
                record(self.exchange(&[0, 0xB2, number, file + 4, 0])?, known)?;
            }
        }
        let mandatory = [ACCOUNT, EXPIRY, FIRST_LIST, SECOND_LIST];
        if mandatory.iter().any(|&at| known.values[at].is_none()) {
            return Err(MISSING.into());
        }
        Ok(())
    }

    /// The results of the verification list, where they are due.
    fn results(&mut self, known: &mut Known<'a>, profile: [u8; 2]) -> Result<(), End> {
        let Some(list) = known.values[METHODS].filter(|_| profile[0] & 0x10 != 0) else {
            return Ok(());
        };
        let results = self.due(RESULTS)?;
        if results.len() != (list.len() - 8) / 2 || results.iter().any(|&result| result > 4) {
            return Err(End::Broken);
        }
        known.tvr[2] |= outcome(known, list, results);
        known.tsi[0] |= 0x40;
        Ok(())
    }

    /// The first request, and the issuer's reply to an ARQC.
    fn first(&mut self, known: &mut Known<'a>) -> Result<Host, End> {
        let asked = first_request(known);
        let length =
            self.put_generate(asked, known.values[FIRST_LIST].unwrap_or_default(), known)?;
        let information = cryptogram(self.exchange_buffer(length)?)?;
        let given = Cryptogram::answered(information).filter(|&given| asked.allows(given));
        let given = given.ok_or(NOT_ALLOWED)?;
        known.tsi[0] |= 0x20;
        match given {
            Cryptogram::Tc => Err(End::Decided(APPROVED)),
            Cryptogram::Aac => Err(End::Decided(DECLINED)),
            Cryptogram::Arqc if known.start.bytes[0] == OFFLINE_ONLY => Ok(Host::Unable),
            Cryptogram::Arqc => Host::read(self.due(HOST)?).ok_or(End::Broken),
        }
    }

    /// The second request: the outcome.
    fn second(&mut self, known: &mut Known<'a>, host: Host) -> Result<u8, End> {
        let (asked, code) = second_request(known, host);
        known.response = Some(code);
        let length =
            self.put_generate(asked, known.values[SECOND_LIST].unwrap_or_default(), known)?;
        let information = cryptogram(self.exchange_buffer(length)?)?;
        match Cryptogram::answered(information) {
            Some(Cryptogram::Aac) => Ok(DECLINED),
            Some(Cryptogram::Tc) if asked == Cryptogram::Tc => Ok(APPROVED),
            _ => Err(NOT_ALLOWED.into()),
        }
    }

    /// From GPO to the outcome.
    fn transaction(&mut self, list: &'a [u8], known: &mut Known<'a>) -> Result<u8, End> {
        let length = self.put_options(list, known)?;
        let (profile, locator) = options(self.exchange_buffer(length)?)?;
        known.profile = Some(profile);
        self.records(locator, known)?;
        set_facts(known, profile);
        self.results(known, profile)?;
        let host = self.first(known)?;
        self.second(known, host)
    }

    /// The whole session: nothing but its DECISION is left to be seen.
    fn session(&mut self, known: &mut Known<'a>) -> End {
        let decided = match self.select(&known.start) {
            Ok(list) => self.transaction(list, known),
            Err(end) => Err(end),
        };
        let (result, reason) = match decided {
            Ok(result) | Err(End::Decided(result)) => (result, 0),
            Err(End::Terminated(Reason(reason))) => (TERMINATED, reason),
            Err(end) => return end,
        };
        let ([a, b, c, d, e], [f, g]) = (known.tvr, known.tsi);
        match self.due(DECISION) {
            Ok(payload) if *payload == [result, reason, a, b, c, d, e, f, g] => {
                self.nothing_more(End::Decided(result))
            }
            Ok(_) => End::Broken,
            Err(end) => end,
        }
    }
}

/// The finding on a readable tape.
pub fn follow(blocks: &[Block]) -> Finding {
    let mut entries = Entries { blocks, taken: 0, zeros: 0, buffer: [0; LONGEST] };
    let end = match entries.due(START_KIND) {
        Ok(payload) => match Start::read(payload) {
            Some(start) => entries.session(&mut Known::new(start)),
            None => End::Broken,
        },
        Err(end) => end,
    };
    let (verdict, place) = match end {
        End::Broken => (Verdict::Fail, entries.taken - 1),
        End::Cut => (Verdict::Inconclusive, blocks.len()),
        End::Decided(_) | End::Terminated(_) => (Verdict::Pass, blocks.len()),
    };
    Finding { verdict, place, code: 0, zeros: entries.zeros }
}
