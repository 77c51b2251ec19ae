// A program for the crate latex2mathml of crates.io; tests/test_rust.py builds it with the crate of integrations/rust.
use latex2mathml::{latex_to_mathml, replace, DisplayStyle, LatexError};

fn page(document: &str) -> Result<String, Box<dyn std::error::Error>> {
    Ok(format!("<p>{}</p>", replace(document)?))
}

fn show(latex: &str, display: DisplayStyle) -> Result<String, LatexError> {
    latex_to_mathml(latex, display)
}

fn main() {
    println!("{}", latex_to_mathml(r"E = m c^2", DisplayStyle::Block).unwrap());
    println!("{}", page("Let $r$ be.").unwrap());
    for fault in [show("{x", DisplayStyle::Inline).unwrap_err().clone(), replace("$").unwrap_err()].iter() {
        println!("{}", fault);
        assert!(!format!("{:?}", fault).is_empty());
    }
}
