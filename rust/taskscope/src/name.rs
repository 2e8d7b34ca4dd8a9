//! What a line can hold in the place of a name.

use std::borrow::Cow;
use std::fmt;

const LONGEST: usize = 1024;

/// A name as a line holds it: 1 to 1,024 bytes of printable ASCII.
#[derive(Clone, Debug, PartialEq, Eq, PartialOrd, Ord, Hash)]
pub(crate) struct Name(Cow<'static, str>);

fn is_printable(byte: u8) -> bool {
    (b' '..=b'~').contains(&byte)
}

/// Whether a text is a name as it stands.
fn is_name(text: &str) -> bool {
    // Without an early end, so that the compiler makes one pass of many bytes at once.
    let is_ascii = text.bytes().fold(true, |so_far, byte| so_far & is_printable(byte));
    is_ascii && !text.is_empty() && text.len() <= LONGEST
}

/// The name in the place of a text that is none.
fn replaced(text: &str) -> String {
    let shown = |character| match character {
        ' '..='~' => character,
        _ => '?',
    };
    match text {
        "" => String::from("?"),
        _ => text.chars().map(shown).take(LONGEST).collect(),
    }
}

impl Name {
    /// By the rule that the crate's head states.
    pub(crate) fn new(text: Cow<'static, str>) -> Name {
        if is_name(&text) {
            Name(text)
        } else {
            Name(Cow::Owned(replaced(&text)))
        }
    }

    /// Whether this is the name that the text becomes.
    pub(crate) fn is(&self, text: &str) -> bool {
        self.0 == text || (!is_name(text) && self.0 == replaced(text))
    }

    pub(crate) fn as_str(&self) -> &str {
        &self.0
    }

    pub(crate) fn as_bytes(&self) -> &[u8] {
        self.0.as_bytes()
    }
}

impl fmt::Display for Name {
    fn fmt(&self, f: &mut fmt::Formatter<'_>) -> fmt::Result {
        f.write_str(&self.0)
    }
}

#[cfg(test)]
mod tests {
    use super::Name;

    // Each name, and what a line has in its place.
    #[rustfmt::skip]
    const NAMES: [(&str, &str, &str); 6] = [
        ("printable ASCII stays",          "a \"b\" ~",     "a \"b\" ~"),
        ("the empty name",                 "",              "?"),
        ("a character of two bytes",       "caf\u{e9}",     "caf?"),
        ("a character of four bytes",      "\u{1f980}",     "?"),
        ("a line end and a tabulator",     "a\nb\tc",       "a?b?c"),
        ("the byte after the last one",    "a\u{7f}",       "a?"),
    ];

    #[test]
    fn names_become_what_a_line_can_hold() {
        for (case, given, held) in NAMES {
            let name = Name::new(given.into());
            assert_eq!(name.as_bytes(), held.as_bytes(), "{case}");
            assert!(name.is(given) && name.is(held) && !name.is("other"), "{case}");
        }
    }

    #[test]
    fn long_names_are_cut() {
        for (given, held) in [("x".repeat(1024), 1024), ("x".repeat(1025), 1024), ("\u{e9}".repeat(600), 600)] {
            assert_eq!(Name::new(given.into()).as_bytes().len(), held);
        }
    }
}
