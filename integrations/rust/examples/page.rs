//! Reads a document with formulas between dollar signs and prints the page:
//!     cargo run --example page <a.txt >a.html

use std::error::Error;
use std::io::{self, Read};

fn main() -> Result<(), Box<dyn Error>> {
    let mut document = String::new();
    io::stdin().read_to_string(&mut document)?;
    println!(
        r#"<!DOCTYPE html>
<html lang="en">
<head>
<meta charset="utf-8">
<title>A page with formulas</title>
<link rel="stylesheet" href="page/latex2mathml.css">
<script src="page/latex2mathml.js" defer></script>
</head>
<body>
{}
</body>
</html>"#,
        latex2mathml::replace(&document)?
    );
    Ok(())
}
