//! As much of JSON as call sequences and vectors need: objects, arrays,
//! strings (of the escapes only those of a single character), whole numbers
//! and the three words.

#[derive(Debug, PartialEq, Eq)]
pub enum Value {
    Object(Vec<(String, Value)>),
    Array(Vec<Value>),
    Text(String),
    Number(u64),
    Truth(bool),
    Null,
}

impl Value {
    pub fn get(&self, name: &str) -> Option<&Value> {
        match self {
            Value::Object(members) => members.iter().find(|m| m.0 == name).map(|m| &m.1),
            _ => None,
        }
    }

    pub fn array(&self) -> Option<&[Value]> {
        match self {
            Value::Array(items) => Some(items),
            _ => None,
        }
    }

    pub fn text(&self) -> Option<&str> {
        match self {
            Value::Text(text) => Some(text),
            _ => None,
        }
    }

    pub fn number(&self) -> Option<u64> {
        match self {
            Value::Number(number) => Some(*number),
            _ => None,
        }
    }

    pub fn truth(&self) -> Option<bool> {
        match self {
            Value::Truth(truth) => Some(*truth),
            _ => None,
        }
    }
}

/// The value a text consists of, with nothing behind it.
pub fn parse(text: &str) -> Option<Value> {
    let mut rest = text.trim();
    let value = value(&mut rest)?;
    rest.trim().is_empty().then_some(value)
}

/// Takes the mark off the front, if it is there.
fn take(rest: &mut &str, mark: char) -> Option<()> {
    *rest = rest.trim_start().strip_prefix(mark)?;
    Some(())
}

fn value(rest: &mut &str) -> Option<Value> {
    match rest.trim_start().chars().next()? {
        '{' => members(rest),
        '[' => items(rest),
        '"' => text(rest).map(Value::Text),
        't' => word(rest, "true", Value::Truth(true)),
        'f' => word(rest, "false", Value::Truth(false)),
        'n' => word(rest, "null", Value::Null),
        _ => number(rest),
    }
}

fn word(rest: &mut &str, word: &str, value: Value) -> Option<Value> {
    *rest = rest.trim_start().strip_prefix(word)?;
    Some(value)
}

fn members(rest: &mut &str) -> Option<Value> {
    take(rest, '{')?;
    let mut all = Vec::new();
    if take(rest, '}').is_some() {
        return Some(Value::Object(all));
    }
    loop {
        let name = text(rest)?;
        take(rest, ':')?;
        all.push((name, value(rest)?));
        if take(rest, ',').is_none() {
            take(rest, '}')?;
            return Some(Value::Object(all));
        }
    }
}

fn items(rest: &mut &str) -> Option<Value> {
    take(rest, '[')?;
    let mut all = Vec::new();
    if take(rest, ']').is_some() {
        return Some(Value::Array(all));
    }
    loop {
        all.push(value(rest)?);
        if take(rest, ',').is_none() {
            take(rest, ']')?;
            return Some(Value::Array(all));
        }
    }
}

fn text(rest: &mut &str) -> Option<String> {
    take(rest, '"')?;
    let mut inside = String::new();
    let mut characters = rest.chars();
    loop {
        inside.push(match characters.next()? {
            '"' => break,
            '\\' => match characters.next()? {
                mark @ ('"' | '\\' | '/') => mark,
                'n' => '\n',
                't' => '\t',
                _ => return None,
            },
            other => other,
        });
    }
    *rest = characters.as_str();
    Some(inside)
}

fn number(rest: &mut &str) -> Option<Value> {
    let trimmed = rest.trim_start();
    let end = trimmed.find(|c: char| !c.is_ascii_digit()).unwrap_or(trimmed.len());
    let value = trimmed[..end].parse().ok()?;
    *rest = &trimmed[end..];
    Some(Value::Number(value))
}

#[cfg(test)]
mod tests {
    use super::*;

    #[test]
    fn reading() {
        let value = parse(r#" {"a": [1, "x", {}], "b": []} "#).unwrap();
        let items = value.get("a").and_then(Value::array).unwrap();
        assert_eq!(items[0].number(), Some(1));
        assert_eq!(items[1].text(), Some("x"));
        assert_eq!(value.get("b"), Some(&Value::Array(vec![])));
        assert_eq!(value.get("c"), None);
        assert_eq!(parse("true").unwrap().truth(), Some(true));
        assert_eq!(parse("[null]").unwrap().array(), Some(&[Value::Null][..]));
        assert_eq!(parse(r#""a\\b\"c""#).unwrap().text(), Some("a\\b\"c"));
    }

    #[test]
    fn not_read() {
        for bad in ["", "{", "[1", "[1,]", "{\"a\"}", "\"a", "-1", "1 2", "\"\\u0041\"", "\"\\"] {
            assert_eq!(parse(bad), None, "{bad}");
        }
    }
}
