//! As much of JSON as the files of vectors use: no escape but `\n`, and whole numbers only.

/// A value.
#[derive(Clone, Debug, PartialEq)]
pub enum Json {
    Null,
    Truth(bool),
    Number(i64),
    Word(String),
    List(Vec<Json>),
    Object(Vec<(String, Json)>),
}

impl Json {
    /// The value that a text holds, if it holds one and nothing else.
    pub fn read(text: &str) -> Option<Json> {
        let mut rest = text.trim().as_bytes();
        let value = value(&mut rest)?;
        rest.is_empty().then_some(value)
    }

    /// The field of an object.
    pub fn get(&self, name: &str) -> Option<&Json> {
        match self {
            Json::Object(fields) => fields.iter().find(|(key, _)| key == name).map(|(_, value)| value),
            _ => None,
        }
    }

    pub fn word(&self) -> Option<&str> {
        match self {
            Json::Word(word) => Some(word),
            _ => None,
        }
    }

    pub fn number(&self) -> Option<u64> {
        match self {
            Json::Number(number) => u64::try_from(*number).ok(),
            _ => None,
        }
    }

    pub fn truth(&self) -> Option<bool> {
        match self {
            Json::Truth(truth) => Some(*truth),
            _ => None,
        }
    }

    pub fn list(&self) -> Option<&[Json]> {
        match self {
            Json::List(items) => Some(items),
            _ => None,
        }
    }

    /// A list of numbers.
    pub fn numbers(&self) -> Option<Vec<u64>> {
        self.list()?.iter().map(Json::number).collect()
    }
}

fn value(rest: &mut &[u8]) -> Option<Json> {
    match peek(rest)? {
        b'{' => {
            let mut fields = Vec::new();
            items(rest, b'}', |rest| {
                let key = word(rest)?;
                take(rest, b':')?;
                fields.push((key, value(rest)?));
                Some(())
            })?;
            Some(Json::Object(fields))
        }
        b'[' => {
            let mut list = Vec::new();
            items(rest, b']', |rest| {
                list.push(value(rest)?);
                Some(())
            })?;
            Some(Json::List(list))
        }
        b'"' => word(rest).map(Json::Word),
        b'n' => named(rest, b"null", Json::Null),
        b't' => named(rest, b"true", Json::Truth(true)),
        b'f' => named(rest, b"false", Json::Truth(false)),
        _ => {
            let end = rest.iter().position(|byte| !b"-0123456789".contains(byte)).unwrap_or(rest.len());
            let digits = std::str::from_utf8(&rest[..end]).ok()?;
            *rest = &rest[end..];
            digits.parse().ok().map(Json::Number)
        }
    }
}

/// A value that is written as a name.
fn named(rest: &mut &[u8], name: &[u8], value: Json) -> Option<Json> {
    *rest = rest.strip_prefix(name)?;
    Some(value)
}

/// The first byte that is no space.
fn peek(rest: &mut &[u8]) -> Option<u8> {
    *rest = rest.trim_ascii_start();
    rest.first().copied()
}

fn take(rest: &mut &[u8], byte: u8) -> Option<()> {
    (peek(rest)? == byte).then(|| *rest = &rest[1..])
}

/// Items between brackets, with commas.
fn items(rest: &mut &[u8], close: u8, mut item: impl FnMut(&mut &[u8]) -> Option<()>) -> Option<()> {
    *rest = &rest[1..];
    while peek(rest)? != close {
        item(rest)?;
        if peek(rest)? == b',' {
            *rest = &rest[1..];
        }
    }
    take(rest, close)
}

fn word(rest: &mut &[u8]) -> Option<String> {
    take(rest, b'"')?;
    let mut word = Vec::new();
    loop {
        let (&byte, after) = rest.split_first()?;
        *rest = after;
        match byte {
            b'"' => return String::from_utf8(word).ok(),
            b'\\' => {
                *rest = rest.strip_prefix(b"n")?;
                word.push(b'\n');
            }
            _ => word.push(byte),
        }
    }
}
