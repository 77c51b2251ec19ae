use std::error::Error;
use std::fmt;

/// Why there is no markup for a formula or a document that is read as the crate reads it.
#[derive(Debug, Clone, PartialEq, Eq)]
#[non_exhaustive]
pub enum LatexError {
    /// The text is refused. The reason may quote it, so escape it in HTML.
    Refused(String),
    /// Memory ran out. The same call may succeed later.
    OutOfMemory,
}

/// Why there is no markup for a formula in LaTeX as authors write it.
#[derive(Debug, Clone, PartialEq, Eq)]
#[non_exhaustive]
pub enum TexError {
    /// The formula is refused.
    Refused(Refusal),
    /// The definitions of macros are refused.
    RefusedDefinitions(Refusal),
    /// Memory ran out. The same call may succeed later.
    OutOfMemory,
}

/// What is refused in a formula or in definitions.
#[derive(Debug, Clone, PartialEq, Eq)]
#[non_exhaustive]
pub struct Refusal {
    /// The reason, followed by the place, as in `unknown command \foo at 4`. It may quote the text, so escape it in HTML.
    pub message: String,
    /// The byte of the text where the refused part begins.
    pub place: usize,
    /// The line of that byte, counted from 1.
    pub line: usize,
    /// The column of that byte in characters, counted from 1.
    pub column: usize,
}

impl Refusal {
    /// Returns the refusal of a text at a place, which is the beginning of a character or the end of the text.
    pub(crate) fn new(message: String, text: &str, place: usize) -> Self {
        let before = text.get(..place).unwrap_or(text);
        let (above, line) = before
            .rsplit_once('\n')
            .map_or((0, before), |(above, line)| (above.matches('\n').count() + 1, line));
        Refusal {
            message,
            place,
            line: above + 1,
            column: line.chars().count() + 1,
        }
    }
}

const OUT_OF_MEMORY: &str = "Memory could not be found.";

impl fmt::Display for LatexError {
    fn fmt(&self, f: &mut fmt::Formatter<'_>) -> fmt::Result {
        f.write_str(match self {
            LatexError::Refused(reason) => reason,
            LatexError::OutOfMemory => OUT_OF_MEMORY,
        })
    }
}

impl fmt::Display for TexError {
    fn fmt(&self, f: &mut fmt::Formatter<'_>) -> fmt::Result {
        f.write_str(match self {
            TexError::Refused(refusal) | TexError::RefusedDefinitions(refusal) => &refusal.message,
            TexError::OutOfMemory => OUT_OF_MEMORY,
        })
    }
}

impl Error for LatexError {}

impl Error for TexError {}

#[cfg(test)]
mod tests {
    use super::Refusal;

    #[test]
    fn lines_and_columns() {
        for (text, place, line, column) in [
            ("", 0, 1, 1),
            ("x + y", 4, 1, 5),
            ("é𝟙x", 6, 1, 3),
            ("a\nb", 1, 1, 2),
            ("a\nb", 2, 2, 1),
            ("a\n\né\r\n x", 8, 4, 2),
            ("a\n", 2, 2, 1),
        ] {
            let refusal = Refusal::new("no".to_owned(), text, place);
            assert_eq!(
                (refusal.line, refusal.column),
                (line, column),
                "{:?} at {}",
                text,
                place
            );
            assert_eq!((refusal.message.as_str(), refusal.place), ("no", place));
        }
    }
}
