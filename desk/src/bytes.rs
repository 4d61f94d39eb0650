//! Bytes as text: numbers in decimal, and the escapes of notes.

use std::fmt::Write;

/// A fault in an escape: what is wrong and what would be right.
type Wrong = String;

/// The number that a field of digits gives, held to its range. `name` says what it is.
pub fn number(field: &[u8], name: &str, least: u32, most: u32) -> Result<u32, Wrong> {
    let wrong = |is: String| Err(format!("{name} is {is}; it must be {least} to {most}"));
    match decimal(field) {
        None => wrong(format!("'{}', which is no whole number", quoted(field))),
        Some(number) if (u64::from(least)..=u64::from(most)).contains(&number) => Ok(number as u32),
        Some(_) => wrong(quoted(field)),
    }
}

/// The value of a field of digits alone. What is past 2^64 stays there.
pub fn decimal(field: &[u8]) -> Option<u64> {
    if field.is_empty() {
        return None;
    }
    field.iter().try_fold(0u64, |number, &byte| {
        let digit = byte.wrapping_sub(b'0');
        (digit < 10).then(|| number.saturating_mul(10).saturating_add(digit.into()))
    })
}

/// Puts a number in decimal at the end of these bytes, and gives the count of its digits.
pub fn put_decimal(bytes: &mut [u8], mut number: u32) -> usize {
    let mut digits = 0;
    for byte in bytes.iter_mut().rev() {
        *byte = b'0' + (number % 10) as u8;
        number /= 10;
        digits += 1;
        if number == 0 {
            break;
        }
    }
    digits
}

/// The blank-separated fields of a line, up to a field that starts with #.
pub fn fields(line: &[u8]) -> impl Iterator<Item = &[u8]> + Clone {
    line.split(|byte| is_blank(*byte))
        .filter(|field| !field.is_empty())
        .take_while(|field| field[0] != b'#')
}

pub fn is_blank(byte: u8) -> bool {
    byte == b' ' || byte == b'\t'
}

/// So many fields that are numbers or flows, as part of a sentence.
pub fn counted(count: usize, name: &str) -> String {
    match count {
        0 => format!("no {name}"),
        1 => format!("one {name}"),
        _ => format!("{count} {name}s"),
    }
}

/// Bytes of the user's as part of a sentence: escaped, and cut if they are long.
pub fn quoted(bytes: &[u8]) -> String {
    const MOST: usize = 40;
    let cut = if bytes.len() > MOST { &bytes[..MOST] } else { bytes };
    let mut text = escaped(cut);
    if cut.len() < bytes.len() {
        text += "..";
    }
    text
}

/// Text that a note line gives back as these bytes. Printable UTF-8 stays as it is, but for the
/// backslash; a blank at the end is escaped, so that no editor drops it.
pub fn escaped(bytes: &[u8]) -> String {
    let mut text = String::new();
    for chunk in bytes.utf8_chunks() {
        for character in chunk.valid().chars() {
            match character {
                '\\' => text += "\\\\",
                _ if character.is_control() => {
                    let mut bytes = [0; 4];
                    push_hex(&mut text, character.encode_utf8(&mut bytes).as_bytes());
                }
                _ => text.push(character),
            }
        }
        push_hex(&mut text, chunk.invalid());
    }
    if text.ends_with(' ') {
        text.pop();
        text += "\\x20";
    }
    text
}

fn push_hex(text: &mut String, bytes: &[u8]) {
    for byte in bytes {
        write!(text, "\\x{byte:02x}").expect("a string takes what is written");
    }
}

/// The bytes of a note's text. A newline follows them, unless the text ends in `\c`.
pub fn unescaped(text: &[u8]) -> Result<Vec<u8>, Wrong> {
    let mut bytes = Vec::with_capacity(text.len() + 1);
    let mut rest = text;
    loop {
        let plain = rest.iter().position(|&byte| byte == b'\\').unwrap_or(rest.len());
        bytes.extend_from_slice(&rest[..plain]);
        rest = &rest[plain..];
        match rest {
            [] => {
                bytes.push(b'\n');
                return Ok(bytes);
            }
            b"\\c" => return Ok(bytes),
            _ => {}
        }
        let (byte, length) = escape(rest).ok_or_else(|| no_escape(rest))?;
        bytes.push(byte);
        rest = &rest[length..];
    }
}

/// The byte of the escape in front, and the escape's length.
fn escape(text: &[u8]) -> Option<(u8, usize)> {
    match text {
        [_, b'\\', ..] => Some((b'\\', 2)),
        [_, b'x', high, low, ..] => Some((hex(*high)? << 4 | hex(*low)?, 4)),
        _ => None,
    }
}

fn hex(digit: u8) -> Option<u8> {
    char::from(digit).to_digit(16).map(|value| value as u8)
}

fn no_escape(text: &[u8]) -> Wrong {
    let length = if text.get(1) == Some(&b'x') { 4 } else { 2 };
    let shown = quoted(&text[1..length.min(text.len())]);
    format!(
        "'\\{shown}' is no escape; a backslash is written \\\\, any byte \\x and two hexadecimal digits, and \\c at \
         the line's end leaves out the newline"
    )
}

#[cfg(test)]
mod tests {
    use super::*;
    use hrt::limits::MOST_PERIOD;

    #[test]
    fn numbers_are_held_to_their_range() {
        let period = |field: &[u8]| number(field, "P", 1, MOST_PERIOD);
        for (field, read) in [("007", 7), ("65536", 65_536), ("16777215", 16_777_215)] {
            assert_eq!(period(field.as_bytes()), Ok(read));
        }
        let wrong = |field: &[u8]| period(field).unwrap_err();
        assert_eq!(wrong(b"16777216"), "P is 16777216; it must be 1 to 16777215");
        assert_eq!(wrong(b"4294967297"), "P is 4294967297; it must be 1 to 16777215");
        assert_eq!(
            wrong(b"99999999999999999999999"),
            "P is 99999999999999999999999; it must be 1 to 16777215"
        );
        for field in ["-3", "+3", "3.0", "0x3", "1,000", "3a", ":", "/"] {
            assert!(wrong(field.as_bytes()).contains("no whole number"), "{field}");
        }
    }

    #[test]
    fn decimals_are_written_back() {
        for number in [0, 1, 9, 10, 99, 100, 65_535, 999_999_999, 1_000_000_000, u32::MAX] {
            let mut text = *b"............";
            let front = text.len() - put_decimal(&mut text, number);
            assert_eq!(text[front..], *number.to_string().as_bytes());
            assert_eq!(text[..front], b"............"[..front]);
        }
    }

    #[test]
    fn escapes_give_the_bytes_back() {
        let every: Vec<u8> = (0..=255).collect();
        let texts: [&[u8]; 9] = [
            &every,
            b"",
            b" ",
            b"a ",
            b"\\",
            b"\\n",
            "Tiefe 12\u{b0}\u{85}".as_bytes(),
            b"\\x4",
            b"\\ ",
        ];
        for bytes in texts {
            let text = escaped(bytes);
            let line = bytes.iter().chain(b"\n").copied().collect::<Vec<u8>>();
            assert_eq!(unescaped(text.as_bytes()), Ok(line), "{text}");
            assert_eq!(unescaped(format!("{text}\\c").as_bytes()), Ok(bytes.to_vec()), "{text}");
            assert!(!text.contains(|c: char| c.is_control()) && !text.ends_with(' '), "{text}");
        }
    }

    #[test]
    fn wrong_escapes_are_told() {
        for text in ["\\q", "\\x4", "\\xg0", "\\x", "\\n", "a\\ b", "C:\\new", "D:\\", "\\c "] {
            assert!(unescaped(text.as_bytes()).unwrap_err().contains("is no escape"), "{text}");
        }
    }
}
