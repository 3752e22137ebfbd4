//! The part of JSON Schema (2020-12) that `docs/output.schema.json` uses. A keyword, or a form of one, that is not known here
//! is refused before anything is validated: what is not understood must not pass as met.

use crate::value::Value;

/// A schema whose every keyword is known.
pub struct Schema {
    root: Value,
}

const TYPES: [&str; 7] = ["null", "boolean", "integer", "number", "string", "array", "object"];
const MOST_DEPTH: usize = 64;

impl Schema {
    pub fn of(root: Value) -> Result<Schema, String> {
        let schema = Schema { root };
        schema.known(&schema.root, "#", 0)?;
        Ok(schema)
    }

    pub fn root(&self) -> &Value {
        &self.root
    }

    /// What a `$ref` leads to.
    pub fn definition(&self, reference: &Value) -> Option<&Value> {
        let Value::Text(reference) = reference else { return None };
        self.root.at("$defs")?.at(reference.strip_prefix("#/$defs/")?)
    }

    /// Whether this schema, and every one in it, has only what is known.
    fn known(&self, schema: &Value, path: &str, depth: usize) -> Result<(), String> {
        let Value::Object(keywords) = schema else {
            return Err(format!("{path}: not an object"));
        };
        if depth > MOST_DEPTH {
            return Err(format!("{path}: nested too deep, or it leads to itself"));
        }
        for (keyword, value) in keywords {
            let path = format!("{path}/{keyword}");
            if !self.is_well_formed(keyword, value).ok_or_else(|| format!("{path}: this keyword is not known"))? {
                return Err(format!("{path}: this form is not known"));
            }
            for (name, inner) in self.inner(keyword, value) {
                self.known(inner, &format!("{path}/{name}"), depth + 1)?;
            }
        }
        self.required_are_properties(schema).map_err(|name| format!("{path}/required: '{name}' is not among its properties"))
    }

    /// The schemas that stand in a keyword's value, by name.
    fn inner<'a>(&'a self, keyword: &str, value: &'a Value) -> Vec<(String, &'a Value)> {
        match (keyword, value) {
            ("properties" | "$defs", Value::Object(fields)) => {
                fields.iter().map(|(name, value)| (name.clone(), value)).collect()
            }
            ("oneOf", Value::List(values)) => {
                values.iter().enumerate().map(|(index, value)| (index.to_string(), value)).collect()
            }
            ("items", value) => vec![(String::new(), value)],
            ("$ref", reference) => self.definition(reference).map(|value| (String::new(), value)).into_iter().collect(),
            _ => Vec::new(),
        }
    }

    /// Whether a keyword's value has the form that is known; nothing where the keyword is not known.
    fn is_well_formed(&self, keyword: &str, value: &Value) -> Option<bool> {
        let is_text = |value: &Value| matches!(value, Value::Text(_));
        let is_scalar = |value: &Value| !matches!(value, Value::List(_) | Value::Object(_));
        let is_type = |value: &Value| matches!(value, Value::Text(name) if TYPES.contains(&name.as_str()));
        let is_list_of =
            |what: &dyn Fn(&Value) -> bool| matches!(value, Value::List(all) if !all.is_empty() && all.iter().all(what));
        Some(match keyword {
            "$schema" | "$id" | "title" | "description" => is_text(value),
            "$defs" | "properties" => matches!(value, Value::Object(_)),
            "$ref" => self.definition(value).is_some(),
            "type" => is_type(value) || is_list_of(&is_type),
            "const" => is_scalar(value),
            "enum" => is_list_of(&is_scalar),
            "required" => is_list_of(&is_text),
            "additionalProperties" => *value == Value::Bool(false),
            "items" => true,
            "oneOf" => is_list_of(&|_| true),
            "minItems" | "maxItems" => matches!(value, Value::Number(number) if *number >= 0.0 && number.fract() == 0.0),
            "minimum" | "maximum" => matches!(value, Value::Number(_)),
            _ => return None,
        })
    }

    /// A required name that is no property is a slip of the pen; it is given back.
    fn required_are_properties(&self, schema: &Value) -> Result<(), String> {
        let Some(Value::List(names)) = schema.at("required") else {
            return Ok(());
        };
        let stray = names.iter().find(|name| match name {
            Value::Text(name) => schema.at("properties").and_then(|properties| properties.at(name)).is_none(),
            _ => true,
        });
        stray.map_or(Ok(()), |name| Err(name.plain()))
    }
}
