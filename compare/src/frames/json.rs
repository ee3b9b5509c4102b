//! The JSON of the real frames: no escapes in its texts, and whole numbers only.

use std::collections::BTreeMap;

pub enum Json {
    Text(String),
    Number(u32),
    Truth(bool),
    Nothing,
    List(Vec<Json>),
    Object(BTreeMap<String, Json>),
}

/// The value that a line is, if it is one.
pub fn parse(line: &str) -> Option<Json> {
    let mut rest = line;
    let value = value(&mut rest)?;
    rest.trim().is_empty().then_some(value)
}

impl Json {
    /// The value that an object has under a name.
    pub fn get(&self, name: &str) -> Option<&Json> {
        match self {
            Json::Object(members) => members.get(name),
            _ => None,
        }
    }

    pub fn text(&self) -> Option<&str> {
        match self {
            Json::Text(text) => Some(text),
            _ => None,
        }
    }

    /// The number that a text has in hex.
    pub fn hex(&self) -> Option<u64> {
        u64::from_str_radix(self.text()?.strip_prefix("0x")?, 16).ok()
    }
}

fn value(rest: &mut &str) -> Option<Json> {
    *rest = rest.trim_start();
    match rest.chars().next()? {
        '"' => text(rest).map(Json::Text),
        '[' => items(rest, ['[', ']'], value).map(Json::List),
        '{' => {
            let members = items(rest, ['{', '}'], member)?;
            Some(Json::Object(members.into_iter().collect()))
        }
        _ => word(rest),
    }
}

fn member(rest: &mut &str) -> Option<(String, Json)> {
    let name = text(rest)?;
    take(rest, ':')?;
    Some((name, value(rest)?))
}

/// Items with commas between, in a pair of brackets.
fn items<T>(
    rest: &mut &str,
    [open, close]: [char; 2],
    item: fn(&mut &str) -> Option<T>,
) -> Option<Vec<T>> {
    take(rest, open)?;
    let mut items = Vec::new();
    if take(rest, close).is_some() {
        return Some(items);
    }
    loop {
        items.push(item(rest)?);
        if take(rest, ',').is_none() {
            take(rest, close)?;
            return Some(items);
        }
    }
}

fn text(rest: &mut &str) -> Option<String> {
    take(rest, '"')?;
    let (text, after) = rest.split_once('"')?;
    *rest = after;
    (!text.contains('\\')).then(|| text.to_owned())
}

/// A number, a truth value or none.
fn word(rest: &mut &str) -> Option<Json> {
    let end = rest.find(|c: char| !c.is_ascii_alphanumeric());
    let (word, after) = rest.split_at(end.unwrap_or(rest.len()));
    *rest = after;
    match word {
        "true" => Some(Json::Truth(true)),
        "false" => Some(Json::Truth(false)),
        "null" => Some(Json::Nothing),
        digits => digits.parse().ok().map(Json::Number),
    }
}

/// Takes a character that comes next, but for spaces.
fn take(rest: &mut &str, character: char) -> Option<()> {
    *rest = rest.trim_start().strip_prefix(character)?;
    Some(())
}
