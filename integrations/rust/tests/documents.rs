//! What documents are converted to.

use latex2mathml::{latex_to_mathml, replace, DisplayStyle, LatexError};

fn inline(latex: &str) -> String {
    latex_to_mathml(latex, DisplayStyle::Inline).unwrap()
}

fn block(latex: &str) -> String {
    latex_to_mathml(latex, DisplayStyle::Block).unwrap()
}

#[test]
fn prose_stays() {
    for prose in [
        "",
        "No formula.",
        "a < b &amp; \"c\"\r\n\ttab",
        "naïve 数式",
        "one \\ two",
        "a\0b",
    ] {
        assert_eq!(replace(prose).unwrap(), prose);
    }
}

#[test]
fn formulas_stand_in_their_places() {
    for (document, wanted) in [
        ("Let $a$ be $b$.", format!("Let {} be {}.", inline("a"), inline("b"))),
        ("$$a^2$$", block("a^2")),
        ("x\n$$a$$\ny $b$", format!("x\n{}\ny {}", block("a"), inline("b"))),
        ("$a$$b$", inline("a") + &inline("b")),
        (r"\$5 and \$6", "&#x24;5 and &#x24;6".to_owned()),
        (r"$\$$", inline(r"\$")),
        (r"\\$x$", format!(r"\\{}", inline("x"))),
    ] {
        assert_eq!(replace(document).unwrap(), wanted, "{}", document);
    }
}

#[test]
fn an_answer_is_its_own_answer() {
    let answer = replace(r"\$1 for $x$ and $$\$$$").unwrap();
    assert_eq!(replace(&answer).unwrap(), answer);
}

#[test]
fn refusals() {
    let dollars = "The number of dollar sings found is invalid.";
    for (document, reason) in [
        ("$a", dollars),
        ("{ $$$", dollars),
        (r"$a\$", dollars),
        (
            "$a$ ${$ $}$",
            r#"The token "RBrace" is expected, but the token "EOF" is found.""#,
        ),
        (r"$\begin{a}x\end{a}$ ${$", r#"An unknown environment "a" is found"#),
    ] {
        assert_eq!(
            replace(document),
            Err(LatexError::Refused(reason.to_owned())),
            "{}",
            document
        );
    }
}
