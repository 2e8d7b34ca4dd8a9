//! The labels of samples: what stands between their braces.

use super::text::Text;
use crate::resource::ResourceCell;
use crate::task::TaskCell;
use std::fmt::{self, Write};

/// The labels of all tasks of a place: the name with each run of digits read as `#`, the kind, and where they were spawned.
pub(super) fn of_task(text: &mut Text, task: &TaskCell) -> fmt::Result {
    text.write_str("name=\"")?;
    without_numbers(text, task.name.as_str())?;
    write!(text, "\",kind=\"{}\",location=\"", task.kind)?;
    value(text, task.location.file.as_str())?;
    write!(text, ":{}:{}\"", task.location.line, task.location.column)
}

/// The label of all resources of a type.
pub(super) fn of_resource(text: &mut Text, resource: &ResourceCell) -> fmt::Result {
    text.write_str("type=\"")?;
    value(text, resource.type_name.as_str())?;
    text.write_str("\"")
}

fn without_numbers(text: &mut Text, name: &str) -> fmt::Result {
    let is_digit = |character: char| character.is_ascii_digit();
    let mut rest = name;
    while let Some(at) = rest.find(is_digit) {
        value(text, &rest[..at])?;
        text.write_str("#")?;
        rest = rest[at..].trim_start_matches(is_digit);
    }
    value(text, rest)
}

/// The value of a label. It is of printable ASCII, as all names are, so there is no line end in it.
fn value(text: &mut Text, value: &str) -> fmt::Result {
    let mut rest = value;
    while let Some(at) = rest.find(['\\', '"']) {
        text.write_str(&rest[..at])?;
        text.write_str("\\")?;
        text.write_str(&rest[at..=at])?;
        rest = &rest[at + 1..];
    }
    text.write_str(rest)
}

#[cfg(test)]
mod tests {
    use super::*;

    // Each name, and what a label has in its place.
    #[rustfmt::skip]
    const NAMES: [(&str, &str, &str); 6] = [
        ("no number",                    "fetch",         "fetch"),
        ("a number at the end",          "worker-17",     "worker-#"),
        ("a number at the begin",        "17-worker",     "#-worker"),
        ("two numbers",                  "a1b22",         "a#b#"),
        ("a number alone",               "0",             "#"),
        ("a quote and a backslash",      r#"a"1\2"#,      r##"a\"#\\#"##),
    ];

    #[test]
    fn a_label_has_names_without_numbers() {
        for (case, name, label) in NAMES {
            let mut text = Text::default();
            assert_eq!(text.rewrite(|text| without_numbers(text, name)), Ok(label), "{case}");
        }
    }
}
