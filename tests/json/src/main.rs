//! Objects of JSON, one a line, from standard input. `validate SCHEMA` holds each to a schema, and says `N lines, all valid` or
//! the first violation with its path; `refuse SCHEMA` says `N lines, none valid` or the first that is. `get NAME..` prints the
//! value that the names lead to, for each object, as a script wants it.
//! Exit status 0 where all is well, 1 where a line is not as it should be, 2 where the schema or the call is not.

#![forbid(unsafe_code)]

mod schema;
mod validate;
mod value;

use schema::Schema;
use std::io::Read;
use std::process::ExitCode;
use value::Value;

fn main() -> ExitCode {
    let arguments: Vec<String> = std::env::args().skip(1).collect();
    let words: Vec<&str> = arguments.iter().map(String::as_str).collect();
    let done = match words.as_slice() {
        ["validate", file] => schema_of(file).map(|schema| all_valid(&schema)),
        ["refuse", file] => schema_of(file).map(|schema| none_valid(&schema)),
        ["get", names @ ..] if !names.is_empty() => Ok(got(names)),
        _ => Err("usage: menduvo-json validate SCHEMA | refuse SCHEMA | get NAME..".to_string()),
    };
    match done {
        Ok(Ok(text)) => {
            print!("{text}");
            ExitCode::SUCCESS
        }
        Ok(Err(violation)) => {
            println!("{violation}");
            ExitCode::from(1)
        }
        Err(problem) => {
            eprintln!("menduvo-json: {problem}");
            ExitCode::from(2)
        }
    }
}

fn schema_of(file: &str) -> Result<Schema, String> {
    let text = std::fs::read_to_string(file).map_err(|error| format!("{file}: {error}"))?;
    let schema = value::read(&text).and_then(Schema::of);
    schema.map_err(|problem| format!("{file}: {problem}"))
}

/// Each line with its number. Every line ends, and there is one at least: a text that was cut must not look whole.
fn objects() -> Result<Vec<(usize, Value)>, String> {
    let mut bytes = Vec::new();
    std::io::stdin().lock().read_to_end(&mut bytes).map_err(|error| format!("standard input: {error}"))?;
    let text = String::from_utf8(bytes).map_err(|error| format!("standard input: {error}"))?;
    let whole = text.strip_suffix('\n').ok_or("standard input: no line, or the last one does not end")?;
    let read = |(line, number): (&str, usize)| match value::read(line) {
        Ok(object @ Value::Object(_)) => Ok((number, object)),
        Ok(_) => Err(format!("line {number}: not an object")),
        Err(problem) => Err(format!("line {number}: {problem}")),
    };
    whole.split('\n').zip(1..).map(read).collect()
}

fn all_valid(schema: &Schema) -> Result<String, String> {
    let objects = objects()?;
    for (number, object) in &objects {
        let valid = validate::validate(schema, object);
        valid.map_err(|violation| format!("line {number}: {}: {}", violation.path, violation.words))?;
    }
    Ok(format!("{} lines, all valid\n", objects.len()))
}

fn none_valid(schema: &Schema) -> Result<String, String> {
    let objects = objects()?;
    match objects.iter().find(|(_, object)| validate::validate(schema, object).is_ok()) {
        Some((number, _)) => Err(format!("line {number}: valid")),
        None => Ok(format!("{} lines, none valid\n", objects.len())),
    }
}

fn got(names: &[&str]) -> Result<String, String> {
    let mut text = String::new();
    for (number, object) in objects()? {
        let value = names.iter().try_fold(&object, |value, name| value.at(name));
        let value = value.ok_or_else(|| format!("line {number}: has no {}", names.join("/")))?;
        text.push_str(&value.plain());
        text.push('\n');
    }
    Ok(text)
}
