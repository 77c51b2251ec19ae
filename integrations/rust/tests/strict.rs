//! Marked errors, where none are allowed.

use latex2mathml::{latex_to_mathml, latex_to_mathml_strict, replace, replace_strict, DisplayStyle, LatexError};

const DISPLAYS: [DisplayStyle; 2] = [DisplayStyle::Inline, DisplayStyle::Block];

fn refused(reason: &str) -> Result<String, LatexError> {
    Err(LatexError::Refused(reason.to_owned()))
}

#[test]
fn formulas_without_marks_are_as_before() {
    for latex in ["", "x<y", r"x \leq y", r"\text{PARSE ERROR}", r"\$"] {
        for display in DISPLAYS {
            assert_eq!(latex_to_mathml_strict(latex, display), latex_to_mathml(latex, display));
        }
    }
}

#[test]
fn each_mark_is_named() {
    for (latex, reason) in [
        (r"x \le y", r#"marked as an error: Undefined("Command(\"le\")")"#),
        (r"\<", r#"marked as an error: Undefined("Command(\"<\")")"#),
        (
            r"\frac{\le}{\foo}",
            r#"marked as an error: Undefined("Command(\"le\")"), Undefined("Command(\"foo\")")"#,
        ),
    ] {
        for display in DISPLAYS {
            assert!(
                latex_to_mathml(latex, display).unwrap().contains("[PARSE ERROR: "),
                "{}",
                latex
            );
            assert_eq!(latex_to_mathml_strict(latex, display), refused(reason), "{}", latex);
        }
    }
}

#[test]
fn documents() {
    for document in ["", "No formula.", r"Let $x \leq y$ cost \$5.", "$$x$$"] {
        assert_eq!(replace_strict(document), replace(document));
    }
    let document = r"Let $x \le y$ be $z$, or $$\foo$$.";
    assert!(replace(document).is_ok());
    assert_eq!(
        replace_strict(document),
        refused(r#"marked as an error: Undefined("Command(\"le\")"), Undefined("Command(\"foo\")")"#)
    );
}

#[test]
fn other_refusals_are_as_before() {
    for latex in ["{x", r"\le {x", r"\begin{a}x\end{a}"] {
        let refusal = latex_to_mathml(latex, DisplayStyle::Inline);
        assert!(refusal.is_err(), "{}", latex);
        assert_eq!(latex_to_mathml_strict(latex, DisplayStyle::Inline), refusal);
    }
    assert_eq!(replace_strict("$a"), replace("$a"));
    assert!(replace("$a").is_err());
}
