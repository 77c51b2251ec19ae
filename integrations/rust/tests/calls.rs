//! How calls cope with sizes, nesting and threads, and what a caller can do with their types.

use latex2mathml::{latex_to_mathml, replace, DisplayStyle, LatexError};
use std::error::Error;
use std::thread;

#[test]
fn nothing_is_kept_behind_the_answer() {
    let markup = latex_to_mathml("x", DisplayStyle::Block).unwrap();
    assert_eq!(markup.capacity(), markup.len());
}

#[test]
fn a_million_braces() {
    let depth = 1_000_000;
    let nested = "{".repeat(depth) + "x" + &"}".repeat(depth);
    assert_eq!(
        latex_to_mathml(&nested, DisplayStyle::Inline),
        latex_to_mathml("x", DisplayStyle::Inline)
    );
    assert!(latex_to_mathml(&nested[..depth], DisplayStyle::Inline).is_err());
}

#[test]
fn a_long_document() {
    let piece = "Let $x$ be. ";
    let answer = replace(&piece.repeat(50_000)).unwrap();
    assert_eq!(answer, replace(piece).unwrap().repeat(50_000));
}

#[test]
fn threads() {
    let wanted = latex_to_mathml(r"\frac{a}{b}", DisplayStyle::Block);
    let threads: Vec<_> = (0..4)
        .map(|_| {
            thread::spawn(|| {
                (0..1000)
                    .map(|_| latex_to_mathml(r"\frac{a}{b}", DisplayStyle::Block))
                    .collect::<Vec<_>>()
            })
        })
        .collect();
    for thread in threads {
        assert!(thread.join().unwrap().iter().all(|markup| *markup == wanted));
    }
}

#[test]
fn an_error_passes_through_a_box_and_between_threads() {
    fn convert(latex: &str) -> Result<String, Box<dyn Error + Send + Sync>> {
        Ok(latex_to_mathml(latex, DisplayStyle::Inline)?)
    }
    let error = convert("}").err().or_else(|| convert("{").err()).unwrap();
    assert!(error.downcast_ref::<LatexError>().is_some());
}

#[test]
fn displays() {
    assert_eq!(DisplayStyle::Block.to_string(), "block");
    assert_eq!(format!("{:>8}", DisplayStyle::Inline.to_string()), "  inline");
}
