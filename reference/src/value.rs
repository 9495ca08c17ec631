//! The form of a value: document 01, "A line, a number", first paragraph.

/// "first byte none of"
const NOT_FIRST: &[u8] = b"'\"_#$[]";
/// "no bare value begins", in any mixture of case
const RESERVED_BEGINNINGS: [&[u8]; 2] = [b"data_", b"save_"];
/// "or is", in any mixture of case
const RESERVED_WORDS: [&[u8]; 3] = [b"loop_", b"stop_", b"global_"];

/// What a well-formed value is.
#[derive(Clone, Copy, Debug, PartialEq, Eq)]
pub enum Form {
    /// "A bare `?` or `.` is unassigned"
    Unassigned,
    /// Any other bare value.
    Bare,
    /// "`'` or `"`, text without that mark, the same mark"; the text may be empty.
    Quoted,
}

/// The form of a value, or that it is none.
pub fn form(value: &[u8]) -> Option<Form> {
    match value {
        b"?" | b"." => Some(Form::Unassigned),
        _ if between_quotes(value).is_some() => Some(Form::Quoted),
        _ if is_bare(value) => Some(Form::Bare),
        _ => None,
    }
}

/// The text without quotes: only the outer pair is taken off, a bare value is its own text.
pub fn text(value: &[u8]) -> &[u8] {
    between_quotes(value).unwrap_or(value)
}

fn between_quotes(value: &[u8]) -> Option<&[u8]> {
    [b"'", b"\""].into_iter().find_map(|mark| {
        let inside = value.strip_prefix(mark)?.strip_suffix(mark)?;
        (!inside.contains(&mark[0])).then_some(inside)
    })
}

fn is_bare(value: &[u8]) -> bool {
    value.first().is_some_and(|first| !NOT_FIRST.contains(first))
        && !value.contains(&b' ')
        && !is_reserved(value)
}

fn is_reserved(value: &[u8]) -> bool {
    let begins =
        |word: &[u8]| value.len() >= word.len() && value[..word.len()].eq_ignore_ascii_case(word);
    RESERVED_BEGINNINGS.into_iter().any(begins)
        || RESERVED_WORDS.into_iter().any(|word| value.eq_ignore_ascii_case(word))
}

#[cfg(test)]
mod tests {
    use super::{form, text, Form};

    fn all(values: &[&str], expected: Option<Form>) {
        for value in values {
            assert_eq!(form(value.as_bytes()), expected, "{value}");
        }
    }

    #[test]
    fn unassigned_is_bare() {
        all(&["?", "."], Some(Form::Unassigned));
        all(&["??", "..", "?.", "-.", ".5", "5.", ".(3)"], Some(Form::Bare));
        all(&["'?'", "\".\""], Some(Form::Quoted));
    }

    #[test]
    fn bare_values() {
        all(&["0.16", "C18", "a'b", "a\"", "a_b", "a#", "(", ";", "-"], Some(Form::Bare));
        all(&["_a", "#a", "$a", "[a", "]a", "[", "_"], None);
        all(&["", " ", "a b", " a", "a "], None);
    }

    #[test]
    fn quoted_values() {
        all(
            &["''", "\"\"", "'C10 H20'", "'a\"b'", "\"a'b\"", "' '", "'loop_'"],
            Some(Form::Quoted),
        );
        all(&["'", "\"", "'a", "a b'", "'a\"", "'a'b'", "'a' ", "'''", "'a'b", "\"\"\""], None);
    }

    #[test]
    fn reserved_words() {
        all(&["data_", "data_x", "DATA_X", "Data_x", "save_", "sAvE_1"], None);
        all(&["loop_", "LOOP_", "stop_", "Stop_", "global_", "gLOBAL_"], None);
        all(&["loop_x", "stop_1", "global_a", "data", "xdata_", "loop", "sav_e"], Some(Form::Bare));
    }

    #[test]
    fn only_the_outer_quotes_come_off() {
        assert_eq!(text(b"'C10 H20'"), b"C10 H20");
        assert_eq!(text(b"\"'a'\""), b"'a'");
        assert_eq!(text(b"C10"), b"C10");
        assert_eq!(text(b"''"), b"");
    }
}
