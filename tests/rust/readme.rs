// A program with the lines of the README for Rust. It shows the last of its markups, and other results of these lines.
#![allow(unused_variables)]
fn main() -> Result<(), Box<dyn std::error::Error>> {
LINES
    println!("{}\n{}\n{}", document, markup, refusal);
    Ok(())
}
