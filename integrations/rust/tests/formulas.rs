//! What formulas are converted to: a few formulas for each rule of docs/LANGUAGE.md.

use latex2mathml::{latex_to_mathml, DisplayStyle, LatexError};

/// The content of the formula's `math` element, which is the same in a line of text and in a block except for `display`.
fn content(latex: &str) -> String {
    let parts = [DisplayStyle::Inline, DisplayStyle::Block].map(|display| {
        let markup = latex_to_mathml(latex, display).unwrap_or_else(|reason| panic!("{}: {}", latex, reason));
        let start = format!(
            r#"<math xmlns="http://www.w3.org/1998/Math/MathML" display="{}">"#,
            display
        );
        let inner = markup
            .strip_prefix(&start)
            .and_then(|rest| rest.strip_suffix("</math>"));
        inner.unwrap_or_else(|| panic!("{}: {}", latex, markup)).to_owned()
    });
    assert_eq!(parts[0], parts[1], "{}", latex);
    parts[0].clone()
}

fn check(cases: &[(&str, &str)]) {
    for (latex, wanted) in cases {
        assert_eq!(content(latex), *wanted, "{}", latex);
    }
}

#[test]
fn leaves() {
    check(&[
        ("", ""),
        (" \t\r\n", ""),
        ("7", "<mn>7</mn>"),
        ("2.71", "<mn>2.71</mn>"),
        ("q", "<mi>q</mi>"),
        (r"\omega", "<mi>ω</mi>"),
        ("é", r#"<mi mathvariant="normal">é</mi>"#),
        ("a=b", "<mi>a</mi><mo>=</mo><mi>b</mi>"),
        ("a<b>c", "<mi>a</mi><mo>&lt;</mo><mi>b</mi><mo>&gt;</mo><mi>c</mi>"),
        (r"\$", r#"<mi mathvariant="normal">&#x24;</mi>"#),
        (r"\cos t", "<mi>cos</mi><mi>t</mi>"),
        (r"\operatorname{rk}", "<mi>rk</mi>"),
        (r"\text{if}", "<mtext>if</mtext>"),
        (
            r"a\,b\quad c",
            r#"<mi>a</mi><mspace width="0.167em"/><mi>b</mi><mspace width="1em"/><mi>c</mi>"#,
        ),
        (
            r"\nosuch",
            r#"<mtext>[PARSE ERROR: Undefined("Command(\"nosuch\")")]</mtext>"#,
        ),
    ]);
}

#[test]
fn roots_and_fractions() {
    check(&[
        (r"\sqrt k", "<msqrt><mi>k</mi></msqrt>"),
        (r"\sqrt34", "<msqrt><mn>3</mn></msqrt><mn>4</mn>"),
        (r"\sqrt[n]{5}", "<mroot><mn>5</mn><mi>n</mi></mroot>"),
        (
            r"\sqrt{a-b}",
            "<msqrt><mrow><mi>a</mi><mo>-</mo><mi>b</mi></mrow></msqrt>",
        ),
        (r"\frac ab", "<mfrac><mi>a</mi><mi>b</mi></mfrac>"),
        (r"\frac34", "<mfrac><mn>3</mn><mn>4</mn></mfrac>"),
        (r"\frac{10}{7}", "<mfrac><mn>10</mn><mn>7</mn></mfrac>"),
        (
            r"\binom{n}{k}",
            concat!(
                r#"<mrow><mo stretchy="true" form="prefix">(</mo>"#,
                r#"<mfrac linethickness="0"><mi>n</mi><mi>k</mi></mfrac>"#,
                r#"<mo stretchy="true" form="postfix">)</mo></mrow>"#,
            ),
        ),
    ]);
}

#[test]
fn scripts_and_limits() {
    check(&[
        ("y^3", "<msup><mi>y</mi><mn>3</mn></msup>"),
        ("a_{ij}", "<msub><mi>a</mi><mrow><mi>i</mi><mi>j</mi></mrow></msub>"),
        ("g'", "<msup><mi>g</mi><mo>′</mo></msup>"),
        (r"\int_a^b", "<msubsup><mo>∫</mo><mi>a</mi><mi>b</mi></msubsup>"),
        (r"\int^b_a", "<msubsup><mo>∫</mo><mi>a</mi><mi>b</mi></msubsup>"),
        (r"\oint_S", "<msub><mo>∮</mo><mi>S</mi></msub>"),
        (r"\sum_k^n", "<munderover><mo>∑</mo><mi>k</mi><mi>n</mi></munderover>"),
        (r"\prod_p", "<munder><mo>∏</mo><mi>p</mi></munder>"),
        (r"\sum^n", "<mover><mo>∑</mo><mi>n</mi></mover>"),
        (r"\overset{!}{=}", "<mover><mo>=</mo><mo>!</mo></mover>"),
        (
            r"\hat x_1",
            "<msub><mover><mi>x</mi><mo accent=\"true\">^</mo></mover><mn>1</mn></msub>",
        ),
    ]);
}

#[test]
fn styles_and_fences() {
    check(&[
        (r"\mathbb{Q}", r#"<mi mathvariant="double-struck">Q</mi>"#),
        (r"\bm{v}", r#"<mi mathvariant="bold-italic">v</mi>"#),
        (
            r"\mathbf{v}^2",
            r#"<msup><mi mathvariant="bold">v</mi><mn>2</mn></msup>"#,
        ),
        (
            r"\left[ t \right)",
            r#"<mrow><mo stretchy="true" form="prefix">[</mo><mi>t</mi><mo stretchy="true" form="postfix">)</mo></mrow>"#,
        ),
        (
            r"\left. t \right|",
            r#"<mrow><mo stretchy="true" form="prefix"></mo><mi>t</mi><mo stretchy="true" form="postfix">|</mo></mrow>"#,
        ),
    ]);
}

#[test]
fn environments() {
    check(&[
        (
            r"\begin{matrix} a & b \\ c & d \end{matrix}",
            concat!(
                "<mtable><mtr><mtd><mi>a</mi></mtd><mtd><mi>b</mi></mtd></mtr>",
                "<mtr><mtd><mi>c</mi></mtd><mtd><mi>d</mi></mtd></mtr></mtable>",
            ),
        ),
        (
            r"\begin{bmatrix} a \end{bmatrix}",
            concat!(
                r#"<mrow><mo stretchy="true" form="prefix">[</mo>"#,
                "<mtable><mtr><mtd><mi>a</mi></mtd></mtr></mtable>",
                r#"<mo stretchy="true" form="postfix">]</mo></mrow>"#,
            ),
        ),
        (
            r"\begin{align} a & b \end{align}",
            r#"<mtable columnalign="left"><mtr><mtd><mi>a</mi></mtd><mtd><mi>b</mi></mtd></mtr></mtable>"#,
        ),
    ]);
}

#[test]
fn characters_of_every_kind() {
    for c in ['\0', '\u{1}', '\u{7f}', '€', '\u{ffff}', '𝑥', '\u{10ffff}'] {
        let latex = format!("a{}b", c);
        let markup = content(&latex);
        assert!(
            markup.starts_with("<mi>a</mi>") && markup.ends_with("<mi>b</mi>"),
            "{:?}: {}",
            latex,
            markup
        );
        assert!(markup.contains(c), "{:?}: {}", latex, markup);
    }
}

#[test]
fn refusals() {
    for (latex, reason) in [
        (
            "{x",
            r#"The token "RBrace" is expected, but the token "EOF" is found.""#,
        ),
        (
            r"\left x \right)",
            r#"There must be a parenthesis after "Left", but not found. Insted, "Letter('x', Italic)" is found."#,
        ),
        (
            r"\begin{cases} x \end{cases}",
            r#"An unknown environment "cases" is found"#,
        ),
    ] {
        for display in [DisplayStyle::Inline, DisplayStyle::Block] {
            let refusal = latex_to_mathml(latex, display).unwrap_err();
            assert_eq!(refusal, LatexError::Refused(reason.to_owned()), "{}", latex);
            assert_eq!(refusal.to_string(), reason, "{}", latex);
        }
    }
}
