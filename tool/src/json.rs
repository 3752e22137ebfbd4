//! JSON for scripts: one object a line, so that nothing is parsed from columns. The fields are those of `docs/output.schema.json`.

use std::fmt;

#[derive(Clone, Debug)]
pub enum Json {
    Null,
    Bool(bool),
    Number(usize),
    /// Seconds, to the thousandth.
    Seconds(f64),
    Text(String),
    List(Vec<Json>),
    Object(Vec<(&'static str, Json)>),
}

impl From<bool> for Json {
    fn from(value: bool) -> Json {
        Json::Bool(value)
    }
}

impl From<usize> for Json {
    fn from(value: usize) -> Json {
        Json::Number(value)
    }
}

/// An exit status, which is 0 to 3.
impl From<i32> for Json {
    fn from(status: i32) -> Json {
        Json::Number(status.unsigned_abs() as usize)
    }
}

impl From<u16> for Json {
    fn from(value: u16) -> Json {
        Json::Number(usize::from(value))
    }
}

impl From<&str> for Json {
    fn from(value: &str) -> Json {
        Json::Text(value.to_string())
    }
}

impl From<String> for Json {
    fn from(value: String) -> Json {
        Json::Text(value)
    }
}

impl<T: Into<Json>> From<Option<T>> for Json {
    fn from(value: Option<T>) -> Json {
        value.map_or(Json::Null, T::into)
    }
}

/// A list of whatever has a form in JSON.
pub fn list<T: Into<Json>>(things: impl IntoIterator<Item = T>) -> Json {
    Json::List(things.into_iter().map(T::into).collect())
}

impl fmt::Display for Json {
    fn fmt(&self, to: &mut fmt::Formatter) -> fmt::Result {
        match self {
            Json::Null => to.write_str("null"),
            Json::Bool(value) => write!(to, "{value}"),
            Json::Number(value) => write!(to, "{value}"),
            Json::Seconds(value) => write!(to, "{value:.3}"),
            Json::Text(text) => quoted(to, text),
            Json::List(things) => {
                to.write_str("[")?;
                separated(to, things, |to, thing| thing.fmt(to))?;
                to.write_str("]")
            }
            Json::Object(fields) => {
                to.write_str("{")?;
                separated(to, fields, |to, (name, value)| {
                    quoted(to, name)?;
                    write!(to, ":{value}")
                })?;
                to.write_str("}")
            }
        }
    }
}

fn separated<T>(
    to: &mut fmt::Formatter,
    things: &[T],
    mut one: impl FnMut(&mut fmt::Formatter, &T) -> fmt::Result,
) -> fmt::Result {
    for (index, thing) in things.iter().enumerate() {
        if index > 0 {
            to.write_str(",")?;
        }
        one(to, thing)?;
    }
    Ok(())
}

fn quoted(to: &mut fmt::Formatter, text: &str) -> fmt::Result {
    to.write_str("\"")?;
    for sign in text.chars() {
        match sign {
            '"' => to.write_str("\\\"")?,
            '\\' => to.write_str("\\\\")?,
            '\n' => to.write_str("\\n")?,
            sign if sign.is_control() => write!(to, "\\u{:04x}", u32::from(sign))?,
            sign => write!(to, "{sign}")?,
        }
    }
    to.write_str("\"")
}
