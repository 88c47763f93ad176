//! A minimal JSON reader, sufficient for the test vectors.
//! Numbers are unsigned integers of 64 bits; strings have no escapes.

use std::collections::BTreeMap;

/// A JSON value.
#[derive(Clone, Debug, PartialEq, Eq)]
pub enum Json {
    Null,
    Bool(bool),
    Number(u64),
    Text(String),
    List(Vec<Json>),
    Object(BTreeMap<String, Json>),
}

impl Json {
    /// The value of a whole text.
    pub fn parse(text: &str) -> Result<Json, String> {
        let mut reader = Reader {
            bytes: text.as_bytes(),
            at: 0,
        };
        let value = reader.value()?;
        match reader.peek() {
            None => Ok(value),
            Some(_) => Err(reader.fault("text after the value")),
        }
    }

    /// The value under a key; none for a missing key and for what is no object.
    pub fn get(&self, key: &str) -> Option<&Json> {
        match self {
            Json::Object(fields) => fields.get(key),
            _ => None,
        }
    }

    pub fn as_number(&self) -> Option<u64> {
        match self {
            Json::Number(number) => Some(*number),
            _ => None,
        }
    }

    pub fn as_text(&self) -> Option<&str> {
        match self {
            Json::Text(text) => Some(text),
            _ => None,
        }
    }

    pub fn as_list(&self) -> Option<&[Json]> {
        match self {
            Json::List(items) => Some(items),
            _ => None,
        }
    }

    pub fn as_object(&self) -> Option<&BTreeMap<String, Json>> {
        match self {
            Json::Object(fields) => Some(fields),
            _ => None,
        }
    }
}

/// A position in the text that is read.
struct Reader<'a> {
    bytes: &'a [u8],
    at: usize,
}

impl Reader<'_> {
    fn fault(&self, what: &str) -> String {
        format!("{what} at byte {}", self.at)
    }

    /// The next byte that is not white space; the position moves up to it.
    fn peek(&mut self) -> Option<u8> {
        while matches!(self.bytes.get(self.at), Some(b' ' | b'\t' | b'\r' | b'\n')) {
            self.at += 1;
        }
        self.bytes.get(self.at).copied()
    }

    /// Passes over the byte if it is the next one.
    fn skip(&mut self, byte: u8) -> bool {
        let found = self.peek() == Some(byte);
        if found {
            self.at += 1;
        }
        found
    }

    fn value(&mut self) -> Result<Json, String> {
        match self.peek() {
            Some(b'{') => self.object(),
            Some(b'[') => self.list(),
            Some(b'"') => Ok(Json::Text(self.text()?)),
            Some(b'0'..=b'9') => self.number(),
            Some(b'n') => self.word("null", Json::Null),
            Some(b't') => self.word("true", Json::Bool(true)),
            Some(b'f') => self.word("false", Json::Bool(false)),
            _ => Err(self.fault("no value")),
        }
    }

    fn word(&mut self, word: &str, value: Json) -> Result<Json, String> {
        if !self.bytes[self.at..].starts_with(word.as_bytes()) {
            return Err(self.fault("unknown word"));
        }
        self.at += word.len();
        Ok(value)
    }

    fn number(&mut self) -> Result<Json, String> {
        let mut number: u64 = 0;
        while let Some(&digit @ b'0'..=b'9') = self.bytes.get(self.at) {
            number = number
                .checked_mul(10)
                .and_then(|tens| tens.checked_add(u64::from(digit - b'0')))
                .ok_or_else(|| self.fault("number above 64 bits"))?;
            self.at += 1;
        }
        match self.bytes.get(self.at) {
            Some(b'.' | b'e' | b'E') => Err(self.fault("number is no integer")),
            _ => Ok(Json::Number(number)),
        }
    }

    fn text(&mut self) -> Result<String, String> {
        if !self.skip(b'"') {
            return Err(self.fault("no string"));
        }
        let start = self.at;
        while let Some(&byte) = self.bytes.get(self.at) {
            match byte {
                b'"' => {
                    let text = String::from_utf8_lossy(&self.bytes[start..self.at]).into_owned();
                    self.at += 1;
                    return Ok(text);
                }
                b'\\' => return Err(self.fault("escape in a string")),
                _ => self.at += 1,
            }
        }
        Err(self.fault("string without end"))
    }

    fn list(&mut self) -> Result<Json, String> {
        self.skip(b'[');
        let mut items = Vec::new();
        if self.skip(b']') {
            return Ok(Json::List(items));
        }
        loop {
            items.push(self.value()?);
            if self.skip(b']') {
                return Ok(Json::List(items));
            }
            if !self.skip(b',') {
                return Err(self.fault("no comma in a list"));
            }
        }
    }

    fn object(&mut self) -> Result<Json, String> {
        self.skip(b'{');
        let mut fields = BTreeMap::new();
        if self.skip(b'}') {
            return Ok(Json::Object(fields));
        }
        loop {
            let key = self.text()?;
            if !self.skip(b':') {
                return Err(self.fault("no colon after a key"));
            }
            let value = self.value()?;
            if fields.insert(key, value).is_some() {
                return Err(self.fault("key given twice"));
            }
            if self.skip(b'}') {
                return Ok(Json::Object(fields));
            }
            if !self.skip(b',') {
                return Err(self.fault("no comma in an object"));
            }
        }
    }
}

#[test]
fn values_are_read() {
    let value = Json::parse(r#" {"a": [1, 18446744073709551615], "b": null, "c": {}} "#);
    let value = value.expect("JSON");
    let items = value.get("a").and_then(Json::as_list).expect("list");
    assert_eq!(items[0].as_number(), Some(1));
    assert_eq!(items[1].as_number(), Some(u64::MAX));
    assert_eq!(value.get("b"), Some(&Json::Null));
    assert!(value.get("c").and_then(Json::as_object).is_some());
    assert_eq!(value.get("d"), None);
    assert_eq!(Json::parse("true"), Ok(Json::Bool(true)));
    assert_eq!(Json::parse("\"x y\""), Ok(Json::Text("x y".into())));
}

#[test]
fn faults_are_refused() {
    let faulty = [
        "",
        "[1,",
        "[1 2]",
        "{\"a\" 1}",
        "{\"a\":1,\"a\":2}",
        "1 2",
        "-1",
        "1.5",
        "nul",
        "\"a",
        "\"\\n\"",
        "18446744073709551616",
    ];
    for text in faulty {
        assert!(Json::parse(text).is_err(), "{text}");
    }
}
