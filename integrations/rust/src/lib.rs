//! LaTeX formulas to MathML: the calls of the crate `latex2mathml` 0.2.3, over the proved library, and [`tex_to_mathml`], which
//! reads LaTeX as authors write it.
//!
//! ```
//! use latex2mathml::{latex_to_mathml, DisplayStyle};
//!
//! let markup = latex_to_mathml("x<y", DisplayStyle::Inline)?;
//! assert_eq!(
//!     markup,
//!     r#"<math xmlns="http://www.w3.org/1998/Math/MathML" display="inline"><mi>x</mi><mo>&lt;</mo><mi>y</mi></math>"#,
//! );
//! # Ok::<(), latex2mathml::LatexError>(())
//! ```
//!
//! Any text may be passed, even from untrusted authors. However deeply it is nested, a call returns and needs at most
//! 128 KiB of the stack. Any number of threads may call at once.

use std::fmt;

mod call;
mod error;
mod marks;

pub use error::{LatexError, Refusal, TexError};

/// Where a formula is shown.
#[derive(Debug, Clone, Copy, PartialEq, Eq)]
pub enum DisplayStyle {
    /// In a block of its own.
    Block,
    /// In a line of text.
    Inline,
}

impl fmt::Display for DisplayStyle {
    fn fmt(&self, f: &mut fmt::Formatter<'_>) -> fmt::Result {
        f.write_str(match self {
            DisplayStyle::Block => "block",
            DisplayStyle::Inline => "inline",
        })
    }
}

/// Returns the `math` element of one formula, which has no dollar signs around it. An unknown command is not an error:
/// it is marked in the markup, as `[PARSE ERROR: ..]`. [`latex_to_mathml_strict`] refuses it.
///
/// # Errors
///
/// [`LatexError::Refused`] if the formula cannot be read, for example because a brace is not closed.
/// [`LatexError::OutOfMemory`] if memory runs out.
///
/// # Examples
///
/// ```
/// use latex2mathml::{latex_to_mathml, DisplayStyle, LatexError};
///
/// assert!(latex_to_mathml(r"\frac{1}{2}", DisplayStyle::Block)?.contains("<mfrac><mn>1</mn><mn>2</mn></mfrac>"));
///
/// let refusal = latex_to_mathml("{x", DisplayStyle::Block).unwrap_err();
/// assert_eq!(refusal.to_string(), r#"The token "RBrace" is expected, but the token "EOF" is found.""#);
/// # Ok::<(), LatexError>(())
/// ```
pub fn latex_to_mathml(latex: &str, display: DisplayStyle) -> Result<String, LatexError> {
    call::formula(latex, display == DisplayStyle::Block)
}

/// Like [`latex_to_mathml`], but without marked errors: a formula with an unknown command is refused.
///
/// # Errors
///
/// The errors of [`latex_to_mathml`], and [`LatexError::Refused`] for what it would mark as an error. The reason then names all
/// marked errors.
///
/// # Examples
///
/// ```
/// use latex2mathml::{latex_to_mathml_strict, DisplayStyle};
///
/// assert!(latex_to_mathml_strict(r"x \leq y", DisplayStyle::Inline).is_ok());
///
/// let refusal = latex_to_mathml_strict(r"x \le y", DisplayStyle::Inline).unwrap_err();
/// assert_eq!(refusal.to_string(), r#"marked as an error: Undefined("Command(\"le\")")"#);
/// ```
pub fn latex_to_mathml_strict(latex: &str, display: DisplayStyle) -> Result<String, LatexError> {
    marks::refuse_marks(latex_to_mathml(latex, display)?)
}

/// Returns the `math` element of a formula in LaTeX as authors write it, which has no dollar signs around it. It may use the usual
/// macros of LaTeX and those of a text of definitions, which may be empty.
///
/// # Errors
///
/// [`TexError::Refused`] if the formula cannot be read, for example because a command is unknown. It says where in the formula the
/// refused part begins.
/// [`TexError::RefusedDefinitions`] if the definitions cannot be read. The place is then a place in the definitions.
/// [`TexError::OutOfMemory`] if memory runs out.
///
/// # Examples
///
/// ```
/// use latex2mathml::{tex_to_mathml, DisplayStyle, TexError};
///
/// let markup = tex_to_mathml(r"x_i^2", DisplayStyle::Inline, "")?;
/// assert!(markup.contains("<msubsup><mi>x</mi><mi>i</mi><mn>2</mn></msubsup>"));
///
/// let markup = tex_to_mathml(r"\R", DisplayStyle::Block, r"\newcommand{\R}{\mathbb{R}}")?;
/// assert!(markup.contains("<mi>ℝ</mi>"));
///
/// if let Err(TexError::Refused(refusal)) = tex_to_mathml(r"x + \foo", DisplayStyle::Inline, "") {
///     assert_eq!(refusal.message, r"unknown command \foo at 4");
///     assert_eq!((refusal.place, refusal.line, refusal.column), (4, 1, 5));
/// } else {
///     panic!("it is not refused");
/// }
/// # Ok::<(), TexError>(())
/// ```
pub fn tex_to_mathml(tex: &str, display: DisplayStyle, definitions: &str) -> Result<String, TexError> {
    call::tex(tex, display == DisplayStyle::Block, definitions)
}

/// Like [`tex_to_mathml`], with the formula itself as an annotation in its `math` element, so that a copy of it includes the LaTeX.
///
/// # Errors
///
/// The errors of [`tex_to_mathml`].
///
/// # Examples
///
/// ```
/// use latex2mathml::{tex_to_mathml_with_source, DisplayStyle};
///
/// let markup = tex_to_mathml_with_source("x<y", DisplayStyle::Inline, "")?;
/// assert!(markup.contains(r#"<annotation encoding="application/x-tex">x&lt;y</annotation>"#));
/// # Ok::<(), latex2mathml::TexError>(())
/// ```
pub fn tex_to_mathml_with_source(tex: &str, display: DisplayStyle, definitions: &str) -> Result<String, TexError> {
    call::tex_with_source(tex, display == DisplayStyle::Block, definitions)
}

/// Returns the document with each formula replaced by its `math` element. Its prose is unchanged, except that `\$` becomes
/// `&#x24;`.
///
/// A formula is between single dollar signs, for a line of text, or between double ones, for a block of its own.
///
/// # Errors
///
/// [`LatexError::Refused`] if the dollar signs do not pair, and otherwise for the first formula that is refused.
/// [`LatexError::OutOfMemory`] if memory runs out.
///
/// # Examples
///
/// ```
/// let answer = latex2mathml::replace(r"Let $x$ cost \$5.")?;
/// assert!(answer.starts_with("Let <math") && answer.ends_with("</math> cost &#x24;5."));
/// # Ok::<(), latex2mathml::LatexError>(())
/// ```
pub fn replace(document: &str) -> Result<String, LatexError> {
    call::document(document)
}

/// Like [`replace`], but without marked errors: a document with an unknown command in a formula is refused.
///
/// # Errors
///
/// The errors of [`replace`], and [`LatexError::Refused`] for what it would mark as errors. The reason then names all marked
/// errors.
///
/// # Examples
///
/// ```
/// assert!(latex2mathml::replace_strict(r"Let $x \leq y$ be.").is_ok());
///
/// let refusal = latex2mathml::replace_strict(r"Let $x \le y$ be $\foo$.").unwrap_err();
/// assert_eq!(
///     refusal.to_string(),
///     r#"marked as an error: Undefined("Command(\"le\")"), Undefined("Command(\"foo\")")"#
/// );
/// ```
pub fn replace_strict(document: &str) -> Result<String, LatexError> {
    marks::refuse_marks(replace(document)?)
}
