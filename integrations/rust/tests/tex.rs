//! What formulas in LaTeX as authors write it are converted to. The cases of the library itself are in cases/tex.

use latex2mathml::{tex_to_mathml, tex_to_mathml_with_source, DisplayStyle, Refusal, TexError};

const DEFINITIONS: &str = r"\newcommand{\R}{\mathbb{R}} \newcommand{\half}[1]{\frac{#1}{2}}";

/// The `math` element around some content.
fn math(display: DisplayStyle, content: &str) -> String {
    format!(
        r#"<math xmlns="http://www.w3.org/1998/Math/MathML" display="{}">{}</math>"#,
        display, content
    )
}

/// A half of some content.
fn half(above: &str) -> String {
    format!(
        r#"<mrow style="padding: 0 calc(0.12em - 1px)"><mfrac>{}<mn>2</mn></mfrac><mo lspace="0" rspace="0"></mo></mrow>"#,
        above
    )
}

/// The `math` element that shows some content, with its source, which is already escaped.
fn annotated(display: DisplayStyle, shown: &str, source: &str) -> String {
    let annotation = format!(r#"<annotation encoding="application/x-tex">{}</annotation>"#, source);
    math(display, &format!("<semantics>{}{}</semantics>", shown, annotation)).replacen(
        "><semantics>",
        &format!(r#" alttext="{}"><semantics>"#, source),
        1,
    )
}

#[test]
fn formulas() {
    for (tex, content) in [
        ("", ""),
        ("x_i^2", "<msubsup><mi>x</mi><mi>i</mi><mn>2</mn></msubsup>"),
        (r"\frac12", half("<mn>1</mn>").as_str()),
        (r"a \le b", "<mi>a</mi><mo>≤</mo><mi>b</mi>"),
        (r"\R", "<mi>ℝ</mi>"),
        (r"\half{x}", half("<mi>x</mi>").as_str()),
    ] {
        for display in [DisplayStyle::Inline, DisplayStyle::Block] {
            assert_eq!(
                tex_to_mathml(tex, display, DEFINITIONS),
                Ok(math(display, content)),
                "{}",
                tex
            );
        }
    }
}

#[test]
fn annotations() {
    for (tex, shown, source) in [
        ("", "<mrow></mrow>", ""),
        ("x", "<mi>x</mi>", "x"),
        ("x<y", "<mrow><mi>x</mi><mo>&lt;</mo><mi>y</mi></mrow>", "x&lt;y"),
        (r"\R % a", "<mi>ℝ</mi>", r"\R % a"),
    ] {
        for display in [DisplayStyle::Inline, DisplayStyle::Block] {
            assert_eq!(
                tex_to_mathml_with_source(tex, display, DEFINITIONS),
                Ok(annotated(display, shown, source)),
                "{}",
                tex
            );
        }
    }
    let refused = tex_to_mathml_with_source(r"x + \foo", DisplayStyle::Inline, "");
    assert_eq!(refused, tex_to_mathml(r"x + \foo", DisplayStyle::Inline, ""));
    assert!(refused.is_err());
}

#[test]
fn styles() {
    let limits = |display| tex_to_mathml(r"\lim_x y", display, "").unwrap();
    assert!(limits(DisplayStyle::Block).contains("<munder>"));
    assert!(!limits(DisplayStyle::Inline).contains("<munder>"));
}

#[test]
fn brackets_behind_commands_are_not_drawn() {
    for tex in [r"\smash[b]{x}", r"\cfrac[l]{a}{b}"] {
        let markup = tex_to_mathml(tex, DisplayStyle::Inline, "").unwrap();
        assert!(!markup.contains('[') && !markup.contains(']'), "{}", markup);
    }
}

#[test]
fn a_definition_holds_in_its_formula_alone() {
    assert!(tex_to_mathml(r"\def\foo{x}\foo", DisplayStyle::Inline, "").is_ok());
    assert!(tex_to_mathml(r"\foo", DisplayStyle::Inline, "").is_err());
}

/// What a refusal says.
fn said(refusal: &Refusal) -> (&str, usize, usize, usize) {
    (&refusal.message, refusal.place, refusal.line, refusal.column)
}

#[test]
fn refusals() {
    for (tex, wanted) in [
        ("{x", ("{ is not closed at 0", 0, 1, 1)),
        (r"é\foo", (r"unknown command \foo at 2", 2, 1, 2)),
        ("x\né\n 𝟙\\foo", (r"unknown command \foo at 10", 10, 3, 3)),
        (r"x\", ("a backslash ends the formula at 1", 1, 1, 2)),
    ] {
        let error = tex_to_mathml(tex, DisplayStyle::Inline, DEFINITIONS).unwrap_err();
        assert_eq!(error.to_string(), wanted.0);
        match error {
            TexError::Refused(refusal) => assert_eq!(said(&refusal), wanted),
            other => panic!("{:?}", other),
        }
    }
}

#[test]
fn refused_definitions() {
    for (definitions, wanted) in [
        ("x", ("not a definition at 0", 0, 1, 1)),
        (r"\def\a{x} y", ("not a definition at 10", 10, 1, 11)),
        ("% é\n\\def\\a{x}\ny", ("not a definition at 15", 15, 3, 1)),
    ] {
        for tex in ["x", "{"] {
            let error = tex_to_mathml(tex, DisplayStyle::Inline, definitions).unwrap_err();
            assert_eq!(error.to_string(), wanted.0);
            match error {
                TexError::RefusedDefinitions(refusal) => assert_eq!(said(&refusal), wanted),
                other => panic!("{:?}", other),
            }
        }
    }
}

#[test]
fn an_error_passes_through_a_box_and_between_threads() {
    fn convert(tex: &str) -> Result<String, Box<dyn std::error::Error + Send + Sync>> {
        Ok(tex_to_mathml(tex, DisplayStyle::Inline, "")?)
    }
    assert!(convert("}").unwrap_err().downcast_ref::<TexError>().is_some());
}
