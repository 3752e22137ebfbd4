//! Names of files as they are shown: so that no terminal acts on them, and two names never look the same.

use std::ffi::OsStr;
use std::os::unix::ffi::OsStrExt;

/// A name for a message, a table or a comment, on one line. A byte that is not UTF-8 is shown as `\xff`, and a backslash as `\\`.
pub fn shown(name: &OsStr) -> String {
    let mut shown = String::new();
    for chunk in name.as_bytes().utf8_chunks() {
        chunk.valid().chars().for_each(|sign| push(&mut shown, sign));
        chunk.invalid().iter().for_each(|byte| shown.push_str(&format!("\\x{byte:02x}")));
    }
    shown
}

fn push(shown: &mut String, sign: char) {
    match sign {
        '\\' | '\n' | '\r' | '\t' => shown.extend(sign.escape_default()),
        _ if sign.is_ascii_control() => shown.push_str(&format!("\\x{:02x}", u32::from(sign))),
        _ if is_unseen(sign) => shown.extend(sign.escape_unicode()),
        _ => shown.push(sign),
    }
}

/// Control characters, white space other than a blank, what turns the direction of writing or has no width, and what is no
/// character.
pub fn is_unseen(sign: char) -> bool {
    let code = u32::from(sign);
    sign.is_control()
        || (sign.is_whitespace() && sign != ' ')
        || matches!(code, 0xad | 0x61c | 0x200b..=0x200f | 0x2028..=0x202e | 0x2060..=0x206f | 0xfeff | 0xfff9..=0xfffb)
        || matches!(code, 0xfdd0..=0xfdef | 0xe0000..=0xe007f)
        || code & 0xfffe == 0xfffe
}
