//! Names and other texts as they are shown to people.

/// A name as it is shown: its UTF-8 as it is, other bytes as `\xNN`, a backslash doubled, and what cannot be seen
/// (controls, marks of direction, odd spaces) as `\n` or `\u{..}`. Two names are never shown alike.
pub fn shown(name: &[u8]) -> String {
    let mut text = String::with_capacity(name.len());
    for chunk in name.utf8_chunks() {
        chunk.valid().chars().for_each(|c| push_shown(&mut text, c));
        chunk.invalid().iter().for_each(|b| text.push_str(&format!("\\x{b:02x}")));
    }
    text
}

fn push_shown(text: &mut String, c: char) {
    match c {
        ' '..='[' | ']'..='~' => text.push(c),
        // an accent that stands by itself is escaped only in front of a text, so it is not put in front
        _ => text.extend(['a', c].iter().collect::<String>().escape_debug().skip(1)),
    }
}

/// A text inside HTML or XML, between tags or in a quoted attribute. Characters that XML does not have are shown by
/// their numbers.
pub fn escaped(text: &str) -> String {
    let mut out = String::with_capacity(text.len());
    for c in text.chars() {
        match c {
            '&' => out.push_str("&amp;"),
            '<' => out.push_str("&lt;"),
            '>' => out.push_str("&gt;"),
            '"' => out.push_str("&quot;"),
            '\'' => out.push_str("&#39;"),
            '\u{fffe}' | '\u{ffff}' => out.extend(c.escape_unicode()),
            c if c.is_control() => out.extend(c.escape_debug()),
            c => out.push(c),
        }
    }
    out
}

#[cfg(test)]
mod tests {
    use super::*;

    #[test]
    fn names_are_shown() {
        for (name, text) in [
            (&b"lab/a b.sheet"[..], "lab/a b.sheet"),
            ("gr\u{fc}n/\u{4e2d}.sheet".as_bytes(), "gr\u{fc}n/\u{4e2d}.sheet"),
            ("e\u{301}".as_bytes(), "e\u{301}"),
            (b"a\nb\tc\r", "a\\nb\\tc\\r"),
            (b"\x00\x1b[31m\x7f", "\\0\\u{1b}[31m\\u{7f}"),
            (b"a\\nb", "a\\\\nb"),
            (b"\xff\xfea\xc3", "\\xff\\xfea\\xc3"),
            ("x\u{202e}y\u{a0}z\u{feff}".as_bytes(), "x\\u{202e}y\\u{a0}z\\u{feff}"),
            (b"'\"<&>", "'\"<&>"),
            (b"", ""),
        ] {
            assert_eq!(shown(name), text, "{name:?}");
        }
    }

    #[test]
    fn markup_is_escaped() {
        assert_eq!(escaped("<a href='x'>\"&</a>"), "&lt;a href=&#39;x&#39;&gt;&quot;&amp;&lt;/a&gt;");
        assert_eq!(escaped("a\u{0}b\nc\u{1b}\u{ffff}\u{85}"), "a\\0b\\nc\\u{1b}\\u{ffff}\\u{85}");
        assert_eq!(escaped("gr\u{fc}n"), "gr\u{fc}n");
    }
}
