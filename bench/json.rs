//! JSON trees, for the plain program.

use std::convert::TryFrom;

/// A JSON tree.
pub enum Json {
    Number(u64),
    Text(String),
    Bool(bool),
    List(Vec<Json>),
    Object(Vec<(String, Json)>),
    /// What no form has a use for: `null`, and numbers that are not whole.
    Other,
}

impl Json {
    /// The last member of this name.
    pub fn get(&self, name: &str) -> Option<&Json> {
        let Json::Object(members) = self else {
            return None;
        };
        members.iter().rev().find(|m| m.0 == name).map(|m| &m.1)
    }

    pub fn list(&self) -> Option<&[Json]> {
        match self {
            Json::List(items) => Some(items),
            _ => None,
        }
    }

    pub fn word(&self) -> Option<u32> {
        match self {
            Json::Number(n) => u32::try_from(*n).ok(),
            _ => None,
        }
    }
}

fn blank(text: &[u8], at: usize) -> usize {
    text[at..].iter().position(|b| !b" \t\n\r".contains(b)).map_or(text.len(), |k| at + k)
}

fn json_unit(text: &[u8], at: &mut usize) -> Option<u16> {
    let digits = std::str::from_utf8(text.get(*at..*at + 4)?).ok()?;
    *at += 4;
    u16::from_str_radix(digits, 16).ok()
}

fn json_char(text: &[u8], at: &mut usize) -> Option<char> {
    let mut units = vec![json_unit(text, at)?];
    if (0xd800..0xdc00).contains(&units[0]) && text[*at..].starts_with(b"\\u") {
        *at += 2;
        units.push(json_unit(text, at)?);
    }
    let text = String::from_utf16(&units).ok()?;
    text.chars().next()
}

fn json_text(text: &[u8], at: &mut usize) -> Option<String> {
    (text.get(*at) == Some(&b'"')).then_some(())?;
    *at += 1;
    let mut bytes = Vec::new();
    loop {
        let end = *at + text[*at..].iter().position(|b| matches!(b, b'"' | b'\\'))?;
        bytes.extend(&text[*at..end]);
        *at = end + 1;
        if text[end] == b'"' {
            return String::from_utf8(bytes).ok();
        }
        let byte = *text.get(*at)?;
        *at += 1;
        match byte {
            b'"' | b'\\' | b'/' => bytes.push(byte),
            b'b' => bytes.push(8),
            b'f' => bytes.push(12),
            b'n' => bytes.push(b'\n'),
            b'r' => bytes.push(b'\r'),
            b't' => bytes.push(b'\t'),
            b'u' => bytes.extend(json_char(text, at)?.to_string().bytes()),
            _ => return None,
        }
    }
}

/// A number: a whole one of 64 bits, or one of those that no form has a use for.
fn json_number(text: &[u8], at: &mut usize) -> Option<Json> {
    let end = text[*at..].iter().position(|b| !b.is_ascii_digit() && !b"+-.eE".contains(b)).map_or(text.len(), |k| *at + k);
    let digits = std::str::from_utf8(&text[*at..end]).ok()?;
    *at = end;
    let rest = digits.strip_prefix('-').unwrap_or(digits).as_bytes();
    let begins = match rest {
        [b'0', byte, ..] => !byte.is_ascii_digit(),
        [byte, ..] => byte.is_ascii_digit(),
        [] => false,
    };
    let parted = rest.windows(2).any(|pair| pair[0] == b'.' && !pair[1].is_ascii_digit());
    (begins && !parted && rest.last() != Some(&b'.')).then_some(())?;
    match digits.parse() {
        Ok(value) => Some(Json::Number(value)),
        Err(_) => digits.parse::<f64>().ok().map(|_| Json::Other),
    }
}

fn json_list<T>(text: &[u8], at: &mut usize, end: u8, mut one: impl FnMut(&[u8], &mut usize) -> Option<T>) -> Option<Vec<T>> {
    *at = blank(text, *at + 1);
    let mut items = Vec::new();
    if text.get(*at) == Some(&end) {
        *at += 1;
        return Some(items);
    }
    loop {
        items.push(one(text, at)?);
        *at = blank(text, *at);
        let byte = *text.get(*at)?;
        *at += 1;
        if byte == end {
            return Some(items);
        }
        if byte != b',' {
            return None;
        }
    }
}

fn json_word(text: &[u8], at: &mut usize, word: &str, tree: Json) -> Option<Json> {
    text[*at..].starts_with(word.as_bytes()).then_some(())?;
    *at += word.len();
    Some(tree)
}

fn json(text: &[u8], at: &mut usize) -> Option<Json> {
    *at = blank(text, *at);
    match *text.get(*at)? {
        b'[' => Some(Json::List(json_list(text, at, b']', json)?)),
        b'{' => Some(Json::Object(json_list(text, at, b'}', |text, at| {
            *at = blank(text, *at);
            let name = json_text(text, at)?;
            *at = blank(text, *at);
            (text.get(*at) == Some(&b':')).then_some(())?;
            *at += 1;
            Some((name, json(text, at)?))
        })?)),
        b'"' => Some(Json::Text(json_text(text, at)?)),
        b't' => json_word(text, at, "true", Json::Bool(true)),
        b'f' => json_word(text, at, "false", Json::Bool(false)),
        b'n' => json_word(text, at, "null", Json::Other),
        _ => json_number(text, at),
    }
}

/// The tree of a whole text, if it is JSON.
pub fn read(text: &[u8]) -> Option<Json> {
    let mut at = 0;
    json(text, &mut at).filter(|_| blank(text, at) == text.len())
}
