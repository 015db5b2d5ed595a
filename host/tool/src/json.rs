//! JSON (RFC 8259), as far as this program writes it.

use std::fmt::{Display, Formatter, Result, Write};

/// A value.
#[derive(Clone, Debug, PartialEq)]
pub enum Json {
    /// `null`, which also stands for a number that isn't finite.
    Null,
    /// `true` or `false`.
    Bool(bool),
    /// A whole number.
    Whole(usize),
    /// The shortest decimals that are read back to the same float.
    Real(f64),
    /// Text.
    Text(String),
    /// Values in their order.
    List(Vec<Json>),
    /// Names and values in their order.
    Object(Vec<(&'static str, Json)>),
}

impl Json {
    /// The value at names separated by dots; nothing where there is none.
    #[must_use]
    pub fn at(&self, path: &str) -> Option<&Self> {
        path.split('.').try_fold(self, |value, name| match value {
            Self::Object(fields) => {
                fields.iter().find(|field| field.0 == name).map(|field| &field.1)
            }
            _ => None,
        })
    }

    /// Adds a field to an object.
    #[must_use]
    pub fn with(self, name: &'static str, value: impl Into<Json>) -> Self {
        match self {
            Self::Object(mut fields) => {
                fields.push((name, value.into()));
                Self::Object(fields)
            }
            other => other,
        }
    }
}

impl From<&str> for Json {
    fn from(text: &str) -> Self {
        Self::Text(text.into())
    }
}

impl From<String> for Json {
    fn from(text: String) -> Self {
        Self::Text(text)
    }
}

impl From<bool> for Json {
    fn from(value: bool) -> Self {
        Self::Bool(value)
    }
}

impl From<usize> for Json {
    fn from(number: usize) -> Self {
        Self::Whole(number)
    }
}

impl From<f64> for Json {
    fn from(number: f64) -> Self {
        if number.is_finite() { Self::Real(number) } else { Self::Null }
    }
}

impl<T: Into<Json>> From<Option<T>> for Json {
    fn from(value: Option<T>) -> Self {
        value.map_or(Self::Null, Into::into)
    }
}

impl<T: Into<Json>> From<Vec<T>> for Json {
    fn from(values: Vec<T>) -> Self {
        Self::List(values.into_iter().map(Into::into).collect())
    }
}

impl Display for Json {
    fn fmt(&self, f: &mut Formatter) -> Result {
        match self {
            Self::Null => f.write_str("null"),
            Self::Bool(value) => write!(f, "{value}"),
            Self::Whole(number) => write!(f, "{number}"),
            Self::Real(number) => write!(f, "{number:?}"),
            Self::Text(text) => write_text(f, text),
            Self::List(values) => {
                f.write_char('[')?;
                for (i, value) in values.iter().enumerate() {
                    write!(f, "{}{value}", if i == 0 { "" } else { "," })?;
                }
                f.write_char(']')
            }
            Self::Object(fields) => {
                f.write_char('{')?;
                for (i, (name, value)) in fields.iter().enumerate() {
                    write!(f, "{}\"{name}\":{value}", if i == 0 { "" } else { "," })?;
                }
                f.write_char('}')
            }
        }
    }
}

fn write_text(f: &mut Formatter, text: &str) -> Result {
    f.write_char('"')?;
    for letter in text.chars() {
        match letter {
            '"' | '\\' => write!(f, "\\{letter}")?,
            letter if letter.is_control() => write!(f, "\\u{:04x}", u32::from(letter))?,
            letter => f.write_char(letter)?,
        }
    }
    f.write_char('"')
}

#[cfg(test)]
mod tests {
    use super::*;

    #[test]
    fn values_are_written_as_the_standard_has_them() {
        let value = Json::Object(vec![
            ("text", "a\"\\\n\u{1b}°".into()),
            ("numbers", vec![1e300, -0.0, 5e-324, f64::NAN, f64::INFINITY].into()),
            (
                "more",
                Json::Object(vec![
                    ("count", 3.into()),
                    ("none", None::<usize>.into()),
                    ("is", true.into()),
                ]),
            ),
        ]);
        let expected = r#"{"text":"a\"\\\u000a\u001b°","numbers":[1e300,-0.0,5e-324,null,null],"more":{"count":3,"none":null,"is":true}}"#;
        assert_eq!(value.to_string(), expected);
        assert_eq!(value.at("more.count"), Some(&Json::Whole(3)));
        assert_eq!((value.at("more.lack"), value.at("text.x")), (None, None));
    }
}
