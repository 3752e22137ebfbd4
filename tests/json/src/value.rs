//! A strict reader of JSON (RFC 8259): one value, and nothing after it. What the RFC leaves to readers is refused here: a name
//! that an object has twice, half of a pair of surrogates, a number that is too large, lists that are nested without end.

#[derive(Clone, Debug, PartialEq)]
pub enum Value {
    Null,
    Bool(bool),
    Number(f64),
    Text(String),
    List(Vec<Value>),
    Object(Vec<(String, Value)>),
}

const MOST_DEPTH: usize = 64;

/// The value that the text is.
pub fn read(text: &str) -> Result<Value, String> {
    let mut reader = Reader { text, place: 0, depth: 0 };
    reader.blanks();
    let value = reader.value()?;
    reader.blanks();
    match reader.peek() {
        None => Ok(value),
        Some(_) => Err(reader.problem("more after the value")),
    }
}

impl Value {
    /// The field of an object, or the element of a list by its number.
    pub fn at(&self, name: &str) -> Option<&Value> {
        match self {
            Value::Object(fields) => fields.iter().find(|(field, _)| field == name).map(|(_, value)| value),
            Value::List(values) => values.get(name.parse::<usize>().ok()?),
            _ => None,
        }
    }

    /// The value as a script wants it: a text as it is, and of lists and objects how many they have.
    pub fn plain(&self) -> String {
        match self {
            Value::Null => "null".to_string(),
            Value::Bool(value) => value.to_string(),
            Value::Number(value) => value.to_string(),
            Value::Text(text) => text.clone(),
            Value::List(values) => values.len().to_string(),
            Value::Object(fields) => fields.len().to_string(),
        }
    }
}

struct Reader<'a> {
    text: &'a str,
    place: usize,
    depth: usize,
}

impl Reader<'_> {
    fn problem(&self, words: &str) -> String {
        format!("no JSON: {words}, at byte {}", self.place)
    }

    fn peek(&self) -> Option<u8> {
        self.text.as_bytes().get(self.place).copied()
    }

    /// Goes on behind these bytes, where they come next.
    fn take(&mut self, bytes: &str) -> bool {
        let next = self.text.as_bytes()[self.place..].starts_with(bytes.as_bytes());
        self.place += if next { bytes.len() } else { 0 };
        next
    }

    fn blanks(&mut self) {
        while let Some(b' ' | b'\t' | b'\n' | b'\r') = self.peek() {
            self.place += 1;
        }
    }

    fn value(&mut self) -> Result<Value, String> {
        for (word, value) in [("null", Value::Null), ("true", Value::Bool(true)), ("false", Value::Bool(false))] {
            if self.take(word) {
                return Ok(value);
            }
        }
        match self.peek() {
            Some(b'"') => self.string().map(Value::Text),
            Some(b'-' | b'0'..=b'9') => self.number(),
            Some(b'[') => self.nested(Reader::list),
            Some(b'{') => self.nested(Reader::object),
            _ => Err(self.problem("a value is expected")),
        }
    }

    fn nested(&mut self, inner: fn(&mut Self) -> Result<Value, String>) -> Result<Value, String> {
        self.place += 1;
        self.depth += 1;
        if self.depth > MOST_DEPTH {
            return Err(self.problem("nested too deep"));
        }
        self.blanks();
        let value = inner(self)?;
        self.depth -= 1;
        Ok(value)
    }

    fn list(&mut self) -> Result<Value, String> {
        let mut values = Vec::new();
        if self.take("]") {
            return Ok(Value::List(values));
        }
        loop {
            values.push(self.value()?);
            if self.ends("]")? {
                return Ok(Value::List(values));
            }
        }
    }

    fn object(&mut self) -> Result<Value, String> {
        let mut fields: Vec<(String, Value)> = Vec::new();
        if self.take("}") {
            return Ok(Value::Object(fields));
        }
        loop {
            let name = self.string()?;
            if fields.iter().any(|(field, _)| *field == name) {
                return Err(self.problem(&format!("'{name}' stands twice in an object")));
            }
            self.blanks();
            if !self.take(":") {
                return Err(self.problem("':' is expected"));
            }
            self.blanks();
            fields.push((name, self.value()?));
            if self.ends("}")? {
                return Ok(Value::Object(fields));
            }
        }
    }

    /// Whether the list or object ends here, after an element; a comma says that it does not.
    fn ends(&mut self, end: &str) -> Result<bool, String> {
        self.blanks();
        if self.take(end) {
            return Ok(true);
        }
        if !self.take(",") {
            return Err(self.problem(&format!("',' or '{end}' is expected")));
        }
        self.blanks();
        Ok(false)
    }

    fn string(&mut self) -> Result<String, String> {
        if !self.take("\"") {
            return Err(self.problem("a text in quotes is expected"));
        }
        let mut string = String::new();
        loop {
            let rest = &self.text[self.place..];
            match rest.chars().next() {
                None => return Err(self.problem("a text does not end")),
                Some('"') => {
                    self.place += 1;
                    return Ok(string);
                }
                Some('\\') => string.push(self.escape()?),
                Some(sign) if sign < ' ' => return Err(self.problem("a control character stands in a text")),
                Some(sign) => {
                    self.place += sign.len_utf8();
                    string.push(sign);
                }
            }
        }
    }

    fn escape(&mut self) -> Result<char, String> {
        let escapes =
            [("\\\"", '"'), ("\\\\", '\\'), ("\\/", '/'), ("\\b", '\u{8}'), ("\\f", '\u{c}'), ("\\n", '\n'), ("\\r", '\r')];
        for (escape, sign) in escapes.into_iter().chain([("\\t", '\t')]) {
            if self.take(escape) {
                return Ok(sign);
            }
        }
        let high = self.unit()?;
        let code = match high {
            0xd800..=0xdbff => match self.unit()? {
                low @ 0xdc00..=0xdfff => 0x10000 + ((high - 0xd800) << 10) + (low - 0xdc00),
                _ => return Err(self.problem("half of a pair of surrogates")),
            },
            code => code,
        };
        char::from_u32(code).ok_or_else(|| self.problem("half of a pair of surrogates"))
    }

    /// `\u` and four digits.
    fn unit(&mut self) -> Result<u32, String> {
        if !self.take("\\u") {
            return Err(self.problem("no escape of JSON, or half of a pair of surrogates"));
        }
        let digits =
            self.text.get(self.place..self.place + 4).filter(|digits| digits.bytes().all(|byte| byte.is_ascii_hexdigit()));
        let code = digits.and_then(|digits| u32::from_str_radix(digits, 16).ok());
        let code = code.ok_or_else(|| self.problem("four digits are expected"))?;
        self.place += 4;
        Ok(code)
    }

    fn number(&mut self) -> Result<Value, String> {
        let begin = self.place;
        self.take("-");
        if !self.take("0") {
            self.digits()?;
        }
        if self.take(".") {
            self.digits()?;
        }
        if self.take("e") || self.take("E") {
            let _ = self.take("+") || self.take("-");
            self.digits()?;
        }
        let number = self.text[begin..self.place].parse::<f64>().ok().filter(|number| number.is_finite());
        number.map(Value::Number).ok_or_else(|| self.problem("a number that is too large"))
    }

    fn digits(&mut self) -> Result<(), String> {
        let begin = self.place;
        while let Some(b'0'..=b'9') = self.peek() {
            self.place += 1;
        }
        match self.place > begin {
            true => Ok(()),
            false => Err(self.problem("a digit is expected")),
        }
    }
}
