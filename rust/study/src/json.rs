//! JSON to be written: just what `study show --json` needs.

use std::fmt;

pub enum Json {
    Null,
    /// A number, in its own digits.
    Number(String),
    Text(String),
    List(Vec<Json>),
    Object(Vec<(&'static str, Json)>),
}

impl Json {
    pub fn number(number: impl fmt::Display) -> Self {
        Self::Number(number.to_string())
    }

    pub fn list<T>(items: impl IntoIterator<Item = T>, json: impl FnMut(T) -> Self) -> Self {
        Self::List(items.into_iter().map(json).collect())
    }
}

impl fmt::Display for Json {
    fn fmt(&self, f: &mut fmt::Formatter<'_>) -> fmt::Result {
        match self {
            Self::Null => write!(f, "null"),
            Self::Number(digits) => write!(f, "{digits}"),
            Self::Text(text) => write_text(f, text),
            Self::List(items) => write_joined(f, ['[', ']'], items, |f, item| write!(f, "{item}")),
            Self::Object(members) => write_joined(f, ['{', '}'], members, |f, (name, value)| {
                write_text(f, name)?;
                write!(f, ": {value}")
            }),
        }
    }
}

fn write_joined<T>(
    f: &mut fmt::Formatter<'_>,
    [open, close]: [char; 2],
    items: &[T],
    each: impl Fn(&mut fmt::Formatter<'_>, &T) -> fmt::Result,
) -> fmt::Result {
    write!(f, "{open}")?;
    for (at, item) in items.iter().enumerate() {
        if at > 0 {
            write!(f, ", ")?;
        }
        each(f, item)?;
    }
    write!(f, "{close}")
}

fn write_text(f: &mut fmt::Formatter<'_>, text: &str) -> fmt::Result {
    write!(f, "\"")?;
    for letter in text.chars() {
        match letter {
            '"' | '\\' => write!(f, "\\{letter}")?,
            '\0'..' ' => write!(f, "\\u{:04x}", letter as u32)?,
            _ => write!(f, "{letter}")?,
        }
    }
    write!(f, "\"")
}
