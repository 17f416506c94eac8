//! Sequences of kernel calls as text: one session a line, every call with
//! its event, payload, room and reply, and the session's sum of what was
//! filled with zeros (02, R-6).

use crate::console::Outcome;
use crate::json::{self, Value};
use rules::edition::Edition;
use rules::hex;
use rules::kernel::{Event, Reply, Session};

pub const START: &str = "START";
pub const ANSWER: &str = "ANSWER";
pub const SILENCE: &str = "SILENCE";
pub const HOST: &str = "HOST";
pub const RESULTS: &str = "RESULTS";
/// 02, R-12.
pub const CHOICE: &str = "CHOICE";

/// A call before it is made.
#[derive(Clone, Debug, PartialEq, Eq)]
pub struct Call {
    pub event: &'static str,
    pub payload: Vec<u8>,
    pub room: usize,
}

impl Call {
    pub fn make(&self, session: &mut Session) -> Reply {
        let event = match self.event {
            START => Event::Start(&self.payload),
            ANSWER => Event::Answer(&self.payload),
            HOST => Event::Host(&self.payload),
            RESULTS => Event::Results(&self.payload),
            CHOICE => Event::Choice(&self.payload),
            _ => Event::Silence,
        };
        session.step(self.room, event)
    }
}

/// A call that was made, and what came of it.
#[derive(Clone, Debug)]
pub struct Made {
    pub call: Call,
    pub reply: Reply,
    /// The session's sum after the call.
    pub unsupplied: usize,
}

impl Made {
    pub fn new(call: Call, session: &mut Session) -> Made {
        let reply = call.make(session);
        Made { call, reply, unsupplied: session.unsupplied() }
    }
}

fn lower(bytes: &[u8]) -> String {
    hex::text(bytes).to_lowercase()
}

/// The reply as it stands in a line.
fn reply_text(reply: &Reply) -> String {
    match reply {
        Reply::Command(bytes) => format!("[\"command\", \"{}\"]", lower(bytes)),
        Reply::HostDue => "[\"host\"]".to_string(),
        Reply::ResultsDue(number) => format!("[\"results\", {number}]"),
        Reply::ChoiceDue(shown) => format!("[\"choice\", {shown}]"),
        Reply::Decision(bytes) => format!("[\"decision\", \"{}\"]", lower(bytes)),
        Reply::Closed => "[\"closed\"]".to_string(),
        Reply::Refused(number) => format!("[\"refused\", {number}]"),
    }
}

/// One line of a file of sessions.
pub fn session_line(number: usize, calls: &[Made]) -> String {
    let one = |made: &Made| {
        format!(
            "{{\"event\": \"{}\", \"payload\": \"{}\", \"room\": {}, \"reply\": {}, \"zeros\": {}}}",
            made.call.event,
            lower(&made.call.payload),
            made.call.room,
            reply_text(&made.reply),
            made.unsupplied
        )
    };
    let all: Vec<String> = calls.iter().map(one).collect();
    format!("{{\"session\": {number}, \"calls\": [{}]}}", all.join(", "))
}

/// The call and the reply it should get, as text.
fn read_call(edition: Edition, value: &Value) -> Option<(Call, String)> {
    let names = [START, ANSWER, SILENCE, HOST, RESULTS, CHOICE];
    let known = if edition == Edition::Choosing { &names[..] } else { &names[..5] };
    let event = value.get("event")?.text()?;
    let call = Call {
        event: known.iter().find(|name| **name == event)?,
        payload: hex::bytes(value.get("payload")?.text()?)?,
        room: value.get("room")?.number()? as usize,
    };
    let reply = match value.get("reply")?.array()? {
        [word] => format!("[\"{}\"]", word.text()?),
        [word, Value::Number(number)] => format!("[\"{}\", {number}]", word.text()?),
        [word, bytes] => format!("[\"{}\", \"{}\"]", word.text()?, bytes.text()?.to_lowercase()),
        _ => return None,
    };
    Some((call, reply))
}

/// What is said of a call beside its reply. Files from before R-6 have no sum.
fn with_sum(reply: String, sum: Option<u64>) -> String {
    sum.map_or(reply.clone(), |sum| format!("{reply} zeros {sum}"))
}

/// Plays one line again: calls made, and those whose reply differs.
fn replay_by(edition: Edition, line: &str) -> Option<(usize, Vec<String>)> {
    let value = json::parse(line)?;
    let number = value.get("session")?.number()?;
    let calls = value.get("calls")?.array()?;
    let mut session = Session::by(edition);
    let mut differing = Vec::new();
    for (index, call) in calls.iter().enumerate() {
        let sum = call.get("zeros").and_then(Value::number);
        let (call, wanted) = read_call(edition, call)?;
        let made = Made::new(call, &mut session);
        let wanted = with_sum(wanted, sum);
        let got = with_sum(reply_text(&made.reply), sum.map(|_| made.unsupplied as u64));
        if got != wanted {
            differing.push(format!("session {number} call {index}: expected {wanted}, got {got}"));
        }
    }
    Some((calls.len(), differing))
}

/// Replays a file of sessions and prints every reply that differs.
pub fn replay_file(edition: Edition, path: &str) -> Outcome {
    let text = std::fs::read_to_string(path).map_err(|error| format!("{path}: {error}"))?;
    let (mut made, mut differ) = (0, 0);
    for (index, line) in text.lines().enumerate().filter(|(_, line)| !line.trim().is_empty()) {
        let (calls, differing) = replay_by(edition, line)
            .ok_or_else(|| format!("{path}, line {}: not understood", index + 1))?;
        made += calls;
        differ += differing.len();
        differing.iter().for_each(|line| println!("{line}"));
    }
    println!("{made} compared, {differ} differ");
    if differ == 0 {
        Ok(())
    } else {
        Err("replies differ".to_string())
    }
}

#[cfg(test)]
mod tests {
    use super::*;
    use rules::bench::sample;

    fn replay(line: &str) -> Option<(usize, Vec<String>)> {
        replay_by(Edition::default(), line)
    }

    #[test]
    fn what_is_written_replays() {
        let mut session = Session::default();
        let calls = [
            Call { event: START, payload: sample().to_vec(), room: 260 },
            Call { event: START, payload: sample().to_vec(), room: 261 },
            Call { event: ANSWER, payload: vec![], room: 261 },
            Call { event: SILENCE, payload: vec![], room: 300 },
            Call { event: RESULTS, payload: vec![1], room: 261 },
        ];
        let made = calls.map(|call| Made::new(call, &mut session));
        let line = session_line(4, &made);
        assert!(line.contains("[\"refused\", 1]") && line.contains("00a40400"));
        assert_eq!(replay(&line), Some((5, vec![])));
        let (_, differing) = replay(&line.replace("\"refused\", 2", "\"refused\", 4")).unwrap();
        assert_eq!(differing.len(), 2);
        let (_, differing) = replay(&line.replace("\"zeros\": 0", "\"zeros\": 1")).unwrap();
        assert_eq!(differing.len(), 5);
        let (_, differing) = replay(&line.replace(", \"zeros\": 0", "")).unwrap();
        assert_eq!(differing.len(), 0);
        assert_eq!(replay("{}"), None);
    }

    /// A session up to its results, which are told with their number.
    #[test]
    fn results_replay() {
        let list = "8E0A00000000000000001E00";
        let payloads = [
            (START, sample().to_vec()),
            (ANSWER, hex::bytes("6F098405A000000003A5009000").unwrap()),
            (ANSWER, hex::bytes("80061000080101009000").unwrap()),
            (ANSWER, hex::bytes(&format!("70195A01125F24032612318C008D00{list}9000")).unwrap()),
            (RESULTS, vec![5]),
            (RESULTS, vec![1]),
        ];
        let mut session = Session::default();
        let made = payloads
            .map(|(event, payload)| Made::new(Call { event, payload, room: 261 }, &mut session));
        let line = session_line(1, &made);
        let told = "\"reply\": [\"results\", 1], \"zeros\": 0}, {\"event\": \"RESULTS\", \
                    \"payload\": \"05\", \"room\": 261, \"reply\": [\"refused\", 12]";
        assert!(line.contains(told), "{line}");
        assert_eq!(replay(&line), Some((6, vec![])));
        let (_, differing) = replay(&line.replace("[\"results\", 1]", "[\"host\"]")).unwrap();
        assert_eq!(differing.len(), 1);
    }
}
