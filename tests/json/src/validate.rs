//! Whether a value is as a schema says, and where it first is not.

use crate::schema::Schema;
use crate::value::Value;

/// Where a value is not as the schema says.
#[derive(Debug)]
pub struct Violation {
    pub path: String,
    pub words: String,
    /// The value is another constant: so it is of another form, where there are several.
    of_another_form: bool,
}

pub fn validate(schema: &Schema, value: &Value) -> Result<(), Violation> {
    Validator { schema }.all(schema.root(), value, "")
}

struct Validator<'a> {
    schema: &'a Schema,
}

impl Validator<'_> {
    /// Every keyword of one schema, in the order in which they stand there.
    fn all(&self, schema: &Value, value: &Value, path: &str) -> Result<(), Violation> {
        let Value::Object(keywords) = schema else {
            return Err(violation(path, "the schema is no object".to_string()));
        };
        keywords.iter().try_for_each(|(keyword, wanted)| self.one(schema, keyword, wanted, value, path))
    }

    fn one(&self, schema: &Value, keyword: &str, wanted: &Value, value: &Value, path: &str) -> Result<(), Violation> {
        match keyword {
            "$schema" | "$id" | "title" | "description" | "$defs" => Ok(()),
            "$ref" => match self.schema.definition(wanted) {
                Some(definition) => self.all(definition, value, path),
                None => Err(violation(path, format!("the schema has no {}", wanted.plain()))),
            },
            "type" => self.has_type(wanted, value, path),
            "const" | "enum" => is_among(wanted, value, path),
            "properties" => self.properties(wanted, value, path),
            "required" => required(wanted, value, path),
            "additionalProperties" => no_others(schema, value, path),
            "items" => self.items(wanted, value, path),
            "minItems" | "maxItems" | "minimum" | "maximum" => within(keyword, wanted, value, path),
            "oneOf" => self.one_of(wanted, value, path),
            _ => Err(violation(path, format!("the schema has the keyword '{keyword}', which is not known"))),
        }
    }

    fn has_type(&self, wanted: &Value, value: &Value, path: &str) -> Result<(), Violation> {
        let has = |name: &Value| match (name.plain().as_str(), value) {
            ("null", Value::Null) | ("boolean", Value::Bool(_)) | ("number", Value::Number(_)) => true,
            ("string", Value::Text(_)) | ("array", Value::List(_)) | ("object", Value::Object(_)) => true,
            ("integer", Value::Number(number)) => number.fract() == 0.0,
            _ => false,
        };
        let names = match wanted {
            Value::List(names) => names.as_slice(),
            name => std::slice::from_ref(name),
        };
        match names.iter().any(has) {
            true => Ok(()),
            false => Err(violation(path, format!("is not of type {}", plain(names)))),
        }
    }

    fn properties(&self, wanted: &Value, value: &Value, path: &str) -> Result<(), Violation> {
        let Value::Object(properties) = wanted else {
            return Ok(());
        };
        for (name, schema) in properties {
            // A list has elements by number, and no properties.
            if let (Value::Object(_), Some(inner)) = (value, value.at(name)) {
                self.all(schema, inner, &format!("{path}/{name}"))?;
            }
        }
        Ok(())
    }

    fn items(&self, wanted: &Value, value: &Value, path: &str) -> Result<(), Violation> {
        let Value::List(values) = value else {
            return Ok(());
        };
        values.iter().enumerate().try_for_each(|(index, inner)| self.all(wanted, inner, &format!("{path}/{index}")))
    }

    /// Exactly one form fits. Where none does, the form to tell of is the first that is not ruled out by a constant.
    fn one_of(&self, wanted: &Value, value: &Value, path: &str) -> Result<(), Violation> {
        let Value::List(forms) = wanted else {
            return Ok(());
        };
        let mut violations: Vec<Violation> = forms.iter().filter_map(|form| self.all(form, value, path).err()).collect();
        match forms.len() - violations.len() {
            1 => Ok(()),
            0 => {
                let nearest = violations.iter().position(|violation| !violation.of_another_form);
                Err(violations.swap_remove(nearest.unwrap_or(0)))
            }
            several => Err(violation(path, format!("fits {several} of {} forms, and not one", forms.len()))),
        }
    }
}

fn violation(path: &str, words: String) -> Violation {
    let path = if path.is_empty() { "/" } else { path };
    Violation { path: path.to_string(), words, of_another_form: false }
}

fn plain(values: &[Value]) -> String {
    values.iter().map(Value::plain).collect::<Vec<_>>().join(", ")
}

fn is_among(wanted: &Value, value: &Value, path: &str) -> Result<(), Violation> {
    let values = match wanted {
        Value::List(values) => values.as_slice(),
        value => std::slice::from_ref(value),
    };
    match values.contains(value) {
        true => Ok(()),
        false => Err(Violation { of_another_form: true, ..violation(path, format!("is none of: {}", plain(values))) }),
    }
}

fn required(wanted: &Value, value: &Value, path: &str) -> Result<(), Violation> {
    let (Value::List(names), Value::Object(_)) = (wanted, value) else {
        return Ok(());
    };
    match names.iter().map(Value::plain).find(|name| value.at(name).is_none()) {
        None => Ok(()),
        Some(name) => Err(violation(path, format!("has no '{name}'"))),
    }
}

/// `additionalProperties` false: the object has no field that is not among the properties beside it.
fn no_others(schema: &Value, value: &Value, path: &str) -> Result<(), Violation> {
    let Value::Object(fields) = value else {
        return Ok(());
    };
    let other = fields.iter().find(|(name, _)| schema.at("properties").and_then(|properties| properties.at(name)).is_none());
    match other {
        None => Ok(()),
        Some((name, _)) => Err(violation(path, format!("has '{name}', which the schema does not name"))),
    }
}

fn within(keyword: &str, wanted: &Value, value: &Value, path: &str) -> Result<(), Violation> {
    let Value::Number(limit) = *wanted else {
        return Ok(());
    };
    let holds = match (keyword, value) {
        ("minimum", Value::Number(number)) => *number >= limit,
        ("maximum", Value::Number(number)) => *number <= limit,
        ("minItems", Value::List(values)) => values.len() as f64 >= limit,
        ("maxItems", Value::List(values)) => values.len() as f64 <= limit,
        _ => true,
    };
    match holds {
        true => Ok(()),
        false => Err(violation(path, format!("breaks {keyword} {limit}"))),
    }
}
