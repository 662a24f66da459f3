//! Values of --json, and how they are written.
use std::fmt;

#[derive(Clone)]
pub enum Value {
    None,
    Truth(bool),
    Number(i128),
    Float(f32),
    Text(String),
    List(Vec<Value>),
    Object(Fields),
}

/// Names and values in their order.
pub type Fields = Vec<(&'static str, Value)>;

/// What the objects' keys mean, as docs/FORMATS.md says it. It goes up where a key goes away or means something else.
const SCHEMA: u32 = 1;

/// A line of one object.
pub fn object(fields: Fields) -> String {
    let mut all: Fields = vec![("schema", SCHEMA.into())];
    all.extend(fields);
    format!("{}\n", Value::Object(all))
}

/// A text that stands for bytes, and under a second key the bytes in hexadecimal where the text is not just these.
pub fn exact([key, bytes_key]: [&'static str; 2], text: &str, bytes: &[u8]) -> Fields {
    let mut fields: Fields = vec![(key, text.into())];
    if text.as_bytes() != bytes {
        let hexadecimal: String = bytes.iter().map(|byte| format!("{byte:02x}")).collect();
        fields.push((bytes_key, hexadecimal.into()));
    }
    fields
}

impl Value {
    pub fn list<T: Into<Value>>(values: impl IntoIterator<Item = T>) -> Value {
        Value::List(values.into_iter().map(T::into).collect())
    }

    /// The value in a line for a person.
    pub fn bare(&self) -> String {
        match self {
            Value::Text(text) => text.clone(),
            value => value.to_string(),
        }
    }
}

impl<T: Into<Value>> From<Option<T>> for Value {
    fn from(value: Option<T>) -> Value {
        value.map_or(Value::None, T::into)
    }
}

impl From<bool> for Value {
    fn from(truth: bool) -> Value {
        Value::Truth(truth)
    }
}

impl From<String> for Value {
    fn from(text: String) -> Value {
        Value::Text(text)
    }
}

impl From<&str> for Value {
    fn from(text: &str) -> Value {
        Value::Text(text.into())
    }
}

impl From<Fields> for Value {
    fn from(fields: Fields) -> Value {
        Value::Object(fields)
    }
}

impl From<usize> for Value {
    fn from(number: usize) -> Value {
        Value::Number(number as i128)
    }
}

macro_rules! from_numbers {
    ($($number:ty),*) => {
        $(impl From<$number> for Value {
            fn from(number: $number) -> Value {
                Value::Number(number.into())
            }
        })*
    };
}
from_numbers!(u8, u16, u32, u64, i8, i16, i32, i64);

impl fmt::Display for Value {
    fn fmt(&self, f: &mut fmt::Formatter) -> fmt::Result {
        match self {
            Value::None => f.write_str("null"),
            Value::Truth(truth) => write!(f, "{truth}"),
            Value::Number(number) => write!(f, "{number}"),
            // JSON has no name for what is no number.
            Value::Float(number) if number.is_finite() => write!(f, "{number}"),
            Value::Float(number) => write_text(f, &number.to_string()),
            Value::Text(text) => write_text(f, text),
            Value::List(values) => {
                f.write_str("[")?;
                for (k, value) in values.iter().enumerate() {
                    write!(f, "{}{value}", if k == 0 { "" } else { "," })?;
                }
                f.write_str("]")
            }
            Value::Object(fields) => {
                f.write_str("{")?;
                for (k, (name, value)) in fields.iter().enumerate() {
                    write!(f, "{}\"{name}\":{value}", if k == 0 { "" } else { "," })?;
                }
                f.write_str("}")
            }
        }
    }
}

fn write_text(f: &mut fmt::Formatter, text: &str) -> fmt::Result {
    f.write_str("\"")?;
    for c in text.chars() {
        match c {
            '"' | '\\' => write!(f, "\\{c}")?,
            c if c.is_control() => write!(f, "\\u{:04x}", u32::from(c))?,
            c => write!(f, "{c}")?,
        }
    }
    f.write_str("\"")
}
