//! Arguments as words that can be pasted into a shell, on one line and without a character that a terminal would act on.

use crate::name::is_unseen;
use std::ffi::OsStr;
use std::os::unix::ffi::OsStrExt;

/// A command line.
pub fn line<T: AsRef<OsStr>>(words: &[T]) -> String {
    words.iter().map(|word| quoted(word.as_ref())).collect::<Vec<_>>().join(" ")
}

fn quoted(word: &OsStr) -> String {
    let safe = |byte: u8| byte.is_ascii_alphanumeric() || b"_@%+=:,./-".contains(&byte);
    match word.to_str() {
        Some(text) if !text.is_empty() && text.bytes().all(safe) => text.to_string(),
        Some(text) if !text.chars().any(is_unseen) => format!("'{}'", text.replace('\'', "'\\''")),
        _ => format!("$'{}'", escaped(word.as_bytes())),
    }
}

/// As between `$'` and `'` in bash: bytes by their numbers where they are not plain ASCII.
fn escaped(bytes: &[u8]) -> String {
    let signs = bytes.iter().map(|&byte| match byte {
        b'\\' | b'\'' => format!("\\{}", char::from(byte)),
        b' '..=b'~' => char::from(byte).to_string(),
        _ => format!("\\x{byte:02x}"),
    });
    signs.collect()
}
