//! As much of JSON as the vectors use: objects of strings, whole numbers, null, lists and
//! such objects, one object to a line.

use std::collections::BTreeMap;
use std::iter::Peekable;
use std::str::Chars;

use second::generate::decode_line;

/// A value of an object's member.
#[derive(Clone, Debug, PartialEq)]
pub enum Value {
    Text(String),
    Number(u64),
    List(Vec<Value>),
    Object(Object),
    Null,
}

impl Value {
    pub fn text(&self) -> &str {
        match self {
            Value::Text(text) => text,
            other => panic!("no string: {other:?}"),
        }
    }

    pub fn number(&self) -> u64 {
        match self {
            Value::Number(number) => *number,
            other => panic!("no number: {other:?}"),
        }
    }

    pub fn values(&self) -> &[Value] {
        match self {
            Value::List(values) => values,
            other => panic!("no list: {other:?}"),
        }
    }

    pub fn object(&self) -> &Object {
        match self {
            Value::Object(object) => object,
            other => panic!("no object: {other:?}"),
        }
    }

    /// The numbers of a list.
    pub fn numbers(&self) -> Vec<u64> {
        self.values().iter().map(Value::number).collect()
    }
}

/// An object by its members' names.
#[derive(Clone, Debug, PartialEq)]
pub struct Object(BTreeMap<String, Value>);

impl Object {
    /// Reads one object; panics where the text is something else.
    pub fn parse(line: &str) -> Object {
        let mut reader = Reader(line.chars().peekable());
        reader.expect('{');
        reader.members()
    }

    pub fn has(&self, name: &str) -> bool {
        self.0.contains_key(name)
    }

    pub fn text(&self, name: &str) -> &str {
        self.value(name).text()
    }

    pub fn number(&self, name: &str) -> u64 {
        self.value(name).number()
    }

    /// A number, or none where null stands.
    pub fn number_if_any(&self, name: &str) -> Option<u64> {
        (*self.value(name) != Value::Null).then(|| self.number(name))
    }

    pub fn value(&self, name: &str) -> &Value {
        &self.0[name]
    }

    /// What a list holds.
    pub fn values(&self, name: &str) -> &[Value] {
        self.value(name).values()
    }

    /// The numbers of a list.
    pub fn list(&self, name: &str) -> Vec<u64> {
        self.value(name).numbers()
    }

    /// The numbers of a list's lists.
    pub fn lists(&self, name: &str) -> Vec<Vec<u64>> {
        self.values(name).iter().map(Value::numbers).collect()
    }

    pub fn object(&self, name: &str) -> &Object {
        self.value(name).object()
    }

    /// The bytes of a text: a string, or NAME_hex in hexadecimal digits.
    pub fn written(&self, name: &str) -> Option<Vec<u8>> {
        let in_digits = format!("{name}_hex");
        if self.has(&in_digits) {
            return Some(self.bytes(&in_digits));
        }
        self.has(name).then(|| self.text(name).as_bytes().to_vec())
    }

    /// The bytes of a string of hexadecimal digits.
    pub fn bytes(&self, name: &str) -> Vec<u8> {
        decode_line(self.text(name))
    }
}

struct Reader<'a>(Peekable<Chars<'a>>);

impl Reader<'_> {
    /// Takes the next character, blanks apart, if it is `wanted`.
    fn accept(&mut self, wanted: char) -> bool {
        while self.0.next_if(|c| c.is_whitespace()).is_some() {}
        self.0.next_if_eq(&wanted).is_some()
    }

    fn expect(&mut self, wanted: char) {
        assert!(self.accept(wanted), "no {wanted:?} before {:?}", self.0.peek());
    }

    /// The members of an object, behind its opening brace.
    fn members(&mut self) -> Object {
        let mut members = BTreeMap::new();
        while !self.accept('}') {
            let name = self.string();
            self.expect(':');
            members.insert(name, self.value());
            self.accept(',');
        }
        Object(members)
    }

    fn value(&mut self) -> Value {
        if self.accept('{') {
            return Value::Object(self.members());
        }
        if self.accept('[') {
            return Value::List(self.list());
        }
        match self.0.peek() {
            Some('"') => Value::Text(self.string()),
            Some('n') => {
                "null".chars().for_each(|letter| self.expect(letter));
                Value::Null
            }
            _ => Value::Number(self.number()),
        }
    }

    /// What a list holds, behind its opening bracket.
    fn list(&mut self) -> Vec<Value> {
        let mut list = Vec::new();
        while !self.accept(']') {
            list.push(self.value());
            self.accept(',');
        }
        list
    }

    fn number(&mut self) -> u64 {
        self.accept(' ');
        let mut digits = String::new();
        while let Some(digit) = self.0.next_if(char::is_ascii_digit) {
            digits.push(digit);
        }
        digits.parse().expect("a whole number")
    }

    fn string(&mut self) -> String {
        self.expect('"');
        let mut text = String::new();
        loop {
            match self.0.next().expect("a closed string") {
                '"' => return text,
                '\\' => text.push(self.escaped()),
                character => text.push(character),
            }
        }
    }

    fn escaped(&mut self) -> char {
        match self.0.next() {
            Some('n') => '\n',
            Some('r') => '\r',
            Some('t') => '\t',
            Some('u') => {
                let digits: String = self.0.by_ref().take(4).collect();
                let code = u32::from_str_radix(&digits, 16).expect("four digits");
                char::from_u32(code).expect("a character")
            }
            Some(character @ ('"' | '\\' | '/')) => character,
            other => panic!("no escape: {other:?}"),
        }
    }
}
