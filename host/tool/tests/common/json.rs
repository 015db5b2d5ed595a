//! JSON as a test reads it, and as much of JSON Schema as docs/RESULT.schema.json uses.
#![allow(dead_code, reason = "each file of tests uses some of these")]

use std::collections::BTreeMap;

#[derive(Clone, Debug, PartialEq)]
pub enum Value {
    Null,
    Bool(bool),
    Number(f64),
    Text(String),
    List(Vec<Value>),
    Object(BTreeMap<String, Value>),
}

impl Value {
    #[track_caller]
    pub fn parse(text: &str) -> Self {
        let mut left = Left(text);
        let value = left.value();
        assert_eq!(left.0.trim(), "", "behind the value");
        value
    }

    /// The value at names separated by dots; Null where there is none.
    pub fn at(&self, path: &str) -> &Self {
        path.split('.').fold(self, |value, name| match value {
            Self::Object(fields) => fields.get(name).unwrap_or(&Self::Null),
            _ => &Self::Null,
        })
    }

    pub fn text(&self) -> &str {
        match self {
            Self::Text(text) => text,
            other => panic!("no text: {other:?}"),
        }
    }

    pub fn number(&self) -> f64 {
        match self {
            Self::Number(number) => *number,
            other => panic!("no number: {other:?}"),
        }
    }

    pub fn list(&self) -> &[Self] {
        match self {
            Self::List(values) => values,
            other => panic!("no list: {other:?}"),
        }
    }
}

/// What is left to read.
struct Left<'a>(&'a str);

impl Left<'_> {
    fn take(&mut self, head: &str) -> bool {
        self.0 = self.0.trim_start();
        let rest = self.0.strip_prefix(head);
        self.0 = rest.unwrap_or(self.0);
        rest.is_some()
    }

    fn value(&mut self) -> Value {
        if self.take("null") {
            Value::Null
        } else if self.take("true") {
            Value::Bool(true)
        } else if self.take("false") {
            Value::Bool(false)
        } else if self.take("[") {
            let mut values = vec![];
            while !self.take("]") {
                assert!(values.is_empty() || self.take(","), "no comma: {}", self.0);
                values.push(self.value());
            }
            Value::List(values)
        } else if self.take("{") {
            let mut fields = BTreeMap::new();
            while !self.take("}") {
                assert!(fields.is_empty() || self.take(","), "no comma: {}", self.0);
                assert!(self.take("\""), "no name: {}", self.0);
                let name = self.text();
                assert!(self.take(":"));
                let value = self.value();
                assert!(fields.insert(name, value).is_none(), "a name that is there twice");
            }
            Value::Object(fields)
        } else if self.take("\"") {
            Value::Text(self.text())
        } else {
            let end = self.0.find([',', ']', '}', '\n']).unwrap_or(self.0.len());
            let (number, rest) = self.0.split_at(end);
            self.0 = rest;
            Value::Number(number.trim().parse().expect("a number"))
        }
    }

    fn text(&mut self) -> String {
        let mut text = String::new();
        loop {
            let mut letters = self.0.chars();
            let letter = letters.next().expect("the end of a text");
            self.0 = letters.as_str();
            match letter {
                '"' => return text,
                '\\' => match letters.next() {
                    Some('u') => {
                        let code = u32::from_str_radix(&self.0[1..5], 16).unwrap();
                        text.push(char::from_u32(code).unwrap());
                        self.0 = &self.0[5..];
                    }
                    Some(letter @ ('"' | '\\')) => {
                        text.push(letter);
                        self.0 = letters.as_str();
                    }
                    other => panic!("an escape that isn't written: {other:?}"),
                },
                letter => text.push(letter),
            }
        }
    }
}

/// What of a value isn't as a schema says, and where.
pub fn faults(value: &Value, schema: &Value, whole: &Value, place: &str) -> Vec<String> {
    if let Value::Text(reference) = schema.at("$ref") {
        let path = reference.trim_start_matches('#').trim_start_matches('/').replace('/', ".");
        let target = if path.is_empty() { whole } else { whole.at(&path) };
        assert_ne!(target, &Value::Null, "{reference}");
        return faults(value, target, whole, place);
    }
    let mut found = vec![];
    let types = match schema.at("type") {
        Value::Text(name) => vec![name.clone()],
        Value::List(names) => names.iter().map(|name| name.text().to_owned()).collect(),
        _ => vec![],
    };
    if !types.is_empty() && !types.iter().any(|name| is_of(value, name)) {
        found.push(format!("{place}: {value:?} is none of {types:?}"));
    }
    if let Value::List(values) = schema.at("enum")
        && !values.contains(value)
    {
        found.push(format!("{place}: {value:?} is none of {values:?}"));
    }
    match value {
        Value::List(values) => {
            for value in values {
                found.extend(faults(value, schema.at("items"), whole, place));
            }
        }
        Value::Object(fields) => {
            if let Value::List(names) = schema.at("required") {
                let missing = names.iter().filter(|name| !fields.contains_key(name.text()));
                found.extend(missing.map(|name| format!("{place}: {} is missing", name.text())));
            }
            for (name, value) in fields {
                let place = format!("{place}.{name}");
                match schema.at("properties") {
                    Value::Object(known) if known.contains_key(name) => {
                        found.extend(faults(value, &known[name], whole, &place));
                    }
                    _ => found.push(format!("{place}: it isn't described")),
                }
            }
        }
        _ => {}
    }
    found
}

fn is_of(value: &Value, name: &str) -> bool {
    match (value, name) {
        (Value::Null, "null") | (Value::Bool(_), "boolean") | (Value::Number(_), "number") => true,
        (Value::Number(number), "integer") => number.fract() == 0.0,
        (Value::Text(_), "string") | (Value::List(_), "array") | (Value::Object(_), "object") => {
            true
        }
        _ => false,
    }
}
