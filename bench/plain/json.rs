//! A reader of JSON, as far as `gen` writes it: no escapes, whole numbers alone.

pub enum Value {
    Text(String),
    Number(u64),
    Word,
    List(Vec<Value>),
    Object(Vec<(String, Value)>),
}

impl Value {
    /// The member of a name, in an object that has it.
    pub fn member(&self, name: &str) -> &Value {
        self.get(name).unwrap_or_else(|| panic!("no member {name}"))
    }

    pub fn get(&self, name: &str) -> Option<&Value> {
        match self {
            Value::Object(members) => members.iter().find(|m| m.0 == name).map(|m| &m.1),
            _ => panic!("no object"),
        }
    }

    pub fn number(&self, name: &str) -> usize {
        self.member(name).as_number()
    }

    pub fn text(&self, name: &str) -> &str {
        self.member(name).word()
    }

    /// A number that stands in a list.
    pub fn as_number(&self) -> usize {
        match self {
            Value::Number(number) => *number as usize,
            _ => panic!("no number"),
        }
    }

    /// A text that stands in a list, as words of a set do.
    pub fn word(&self) -> &str {
        match self {
            Value::Text(text) => text,
            _ => panic!("no text"),
        }
    }

    pub fn items(&self) -> &[Value] {
        match self {
            Value::List(items) => items,
            _ => panic!("no list"),
        }
    }
}

/// The value of a whole text.
pub fn read(text: &[u8]) -> Value {
    let mut reader = Reader { text, at: 0 };
    let value = reader.value();
    reader.skip();
    assert!(reader.at == text.len(), "more than one value");
    value
}

struct Reader<'t> {
    text: &'t [u8],
    at: usize,
}

impl Reader<'_> {
    fn skip(&mut self) {
        while matches!(self.text.get(self.at), Some(b' ' | b'\n' | b'\t' | b'\r')) {
            self.at += 1;
        }
    }

    /// The next byte that is no blank, which stays.
    fn next(&mut self) -> u8 {
        self.skip();
        self.text[self.at]
    }

    /// Goes on behind a byte, where it is the next.
    fn takes(&mut self, byte: u8) -> bool {
        if self.next() != byte {
            return false;
        }
        self.at += 1;
        true
    }

    fn value(&mut self) -> Value {
        match self.next() {
            b'"' => Value::Text(self.text()),
            b'[' => Value::List(self.several(b']', Reader::value)),
            b'{' => Value::Object(self.several(b'}', Reader::member)),
            b't' | b'f' => self.word(),
            _ => self.number(),
        }
    }

    /// What stands between brackets, with commas.
    fn several<I>(&mut self, end: u8, item: fn(&mut Self) -> I) -> Vec<I> {
        self.at += 1;
        let mut items = Vec::new();
        if self.takes(end) {
            return items;
        }
        loop {
            items.push(item(self));
            if self.takes(end) {
                return items;
            }
            assert!(self.takes(b','), "no comma");
        }
    }

    fn member(&mut self) -> (String, Value) {
        assert!(self.next() == b'"', "no name");
        let name = self.text();
        assert!(self.takes(b':'), "no colon");
        (name, self.value())
    }

    fn text(&mut self) -> String {
        let rest = &self.text[self.at + 1..];
        let length = rest.iter().position(|b| *b == b'"').expect("an end");
        self.at += length + 2;
        let text = std::str::from_utf8(&rest[..length]).expect("UTF-8");
        assert!(!text.contains('\\'), "an escape");
        text.to_string()
    }

    fn word(&mut self) -> Value {
        let length = if self.text[self.at] == b't' { 4 } else { 5 };
        self.at += length;
        Value::Word
    }

    fn number(&mut self) -> Value {
        let start = self.at;
        let mut number = 0;
        while let Some(digit @ b'0'..=b'9') = self.text.get(self.at) {
            number = 10 * number + u64::from(digit - b'0');
            self.at += 1;
        }
        assert!(start < self.at, "no number");
        Value::Number(number)
    }
}
