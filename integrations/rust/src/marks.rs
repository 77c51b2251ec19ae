//! Errors that are marked in markup.

use crate::LatexError;

// What surrounds the name of an error. No name contains the sign `<`, which is written as a reference.
const START: &str = "<mtext>[PARSE ERROR: ";
const END: &str = "]</mtext>";

/// The references that the library writes, without their `&`, and the character of each.
const REFERENCES: [(&str, char); 5] = [
    ("amp;", '&'),
    ("lt;", '<'),
    ("gt;", '>'),
    ("quot;", '"'),
    ("#x24;", '$'),
];

/// Returns the markup, unless errors are marked in it. The reason then names all of them.
pub fn refuse_marks(markup: String) -> Result<String, LatexError> {
    let mut reason = String::new();
    for (mark, _) in markup.split(START).skip(1).filter_map(|rest| rest.split_once(END)) {
        let separator = if reason.is_empty() {
            "marked as an error: "
        } else {
            ", "
        };
        push(&mut reason, separator)?;
        push_unescaped(&mut reason, mark)?;
    }
    if reason.is_empty() {
        Ok(markup)
    } else {
        Err(LatexError::Refused(reason))
    }
}

fn push_unescaped(text: &mut String, escaped: &str) -> Result<(), LatexError> {
    let mut pieces = escaped.split('&');
    push(text, pieces.next().unwrap_or_default())?;
    for piece in pieces {
        let character = REFERENCES.iter().find(|(name, _)| piece.starts_with(name));
        let (name, character) = character.unwrap_or(&("", '&'));
        push(text, character.encode_utf8(&mut [0; 4]))?;
        push(text, &piece[name.len()..])?;
    }
    Ok(())
}

fn push(text: &mut String, part: &str) -> Result<(), LatexError> {
    text.try_reserve(part.len()).map_err(|_| LatexError::OutOfMemory)?;
    text.push_str(part);
    Ok(())
}

#[cfg(test)]
mod tests {
    use super::*;

    fn refused(markup: &str) -> Option<String> {
        refuse_marks(markup.to_owned()).err().map(|reason| reason.to_string())
    }

    #[test]
    fn markup_without_marks() {
        for markup in [
            "",
            "<math><mi>x</mi></math>",
            "[PARSE ERROR: x]",
            "<mtext>x]</mtext>",
            "<mtext>[PARSE ERROR: x",
        ] {
            assert_eq!(refuse_marks(markup.to_owned()), Ok(markup.to_owned()));
        }
    }

    #[test]
    fn references() {
        let markup = "<mtext>[PARSE ERROR: &amp;lt;&lt;&gt;&quot;&#x24;é&]</mtext>";
        assert_eq!(refused(markup).unwrap(), "marked as an error: &lt;<>\"$é&");
    }

    #[test]
    fn several_marks() {
        let markup = "<mtext>[PARSE ERROR: a]]</mtext><mi>x</mi><mtext>[PARSE ERROR: b\n]</mtext>";
        assert_eq!(refused(markup).unwrap(), "marked as an error: a], b\n");
    }
}
