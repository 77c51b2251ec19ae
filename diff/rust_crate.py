"""The Rust crate latex2mathml 0.2.3 as a program: a driver of a few lines over its public calls, built in a
temporary folder. The crate's own files stay where they are and are only read."""

import subprocess
from pathlib import Path

MANIFEST = """\
[package]
name = "driver"
version = "0.0.0"
edition = "2021"

[dependencies]
latex2mathml = {{ path = "{crate}" }}

[workspace]
"""

# With an argument of the program, all of standard input is one text, as for the program. With `many`, standard input is a
# list of texts. Each is preceded by the first letter of its argument, and followed by a byte that never occurs in UTF-8. The
# answers have the same form. With `calls`, each further argument is a formula, and a line says how often it is converted in a
# processor second. With `repeat`, a number and a formula, it converts the formula that many times.
MAIN = r"""
use latex2mathml::{latex_to_mathml, replace, DisplayStyle, LatexError};
use std::hint::black_box;
use std::io::{stdin, stdout, BufWriter, Read, Write};
use std::panic::{catch_unwind, set_hook};

const END: u8 = 0xFF;

fn answer(word: &str, text: &str) -> Result<String, LatexError> {
    match &word[..1] {
        "i" => latex_to_mathml(text, DisplayStyle::Inline),
        "b" => latex_to_mathml(text, DisplayStyle::Block),
        "d" => replace(text),
        _ => unreachable!("no such word: {word}"),
    }
}

fn answer_many(texts: &[u8], out: &mut impl Write) -> std::io::Result<()> {
    for record in texts.split_inclusive(|&byte| byte == END) {
        let (word, text) = std::str::from_utf8(&record[..record.len() - 1]).unwrap().split_at(1);
        match catch_unwind(|| answer(word, text)) {
            Ok(Ok(markup)) => write!(out, "o{markup}")?,
            Ok(Err(refusal)) => write!(out, "r{refusal}")?,
            Err(_) => write!(out, "p")?,
        }
        out.write_all(&[END])?;
    }
    out.flush()
}

extern "C" {
    // The processor time of this process, in microseconds.
    fn clock() -> std::ffi::c_long;
}

// Conversions per processor second, over two seconds.
fn a_second(latex: &str) -> f64 {
    let now = || unsafe { clock() } as f64 / 1e6;
    let start = now();
    let mut calls = 0.0;
    while now() - start < 2.0 {
        for _ in 0..1000 {
            black_box(latex_to_mathml(black_box(latex), DisplayStyle::Inline).unwrap());
        }
        calls += 1000.0;
    }
    calls / (now() - start)
}

fn main() {
    let word = std::env::args().nth(1).expect("a word");
    if word == "calls" {
        for latex in std::env::args().skip(2) {
            println!("{:.0}", a_second(&latex));
        }
        return;
    }
    if word == "repeat" {
        let words: Vec<String> = std::env::args().skip(2).collect();
        for _ in 0..words[0].parse().expect("a number") {
            black_box(latex_to_mathml(black_box(&words[1]), DisplayStyle::Inline).unwrap());
        }
        return;
    }
    let mut input = Vec::new();
    stdin().read_to_end(&mut input).unwrap();
    if word == "many" {
        set_hook(Box::new(|_| ()));
        answer_many(&input, &mut BufWriter::new(stdout())).unwrap();
    } else {
        let text = std::str::from_utf8(&input).unwrap();
        match answer(&word, text) {
            Ok(markup) => stdout().write_all(markup.as_bytes()).unwrap(),
            Err(refusal) => {
                eprintln!("{refusal}");
                std::process::exit(1)
            }
        }
    }
}
"""


def build(crate, folder):
    """Builds the driver over the crate's folder in a folder of its own, and returns the program's path."""
    folder = Path(folder)
    (folder / "src").mkdir(parents=True)
    (folder / "Cargo.toml").write_text(MANIFEST.format(crate=Path(crate).resolve()), encoding="utf-8")
    (folder / "src" / "main.rs").write_text(MAIN, encoding="utf-8")
    subprocess.run(
        ["cargo", "build", "--release", "--offline", "--quiet", "--jobs", "1", "--target-dir", folder / "target"],
        cwd=folder, check=True)
    return folder / "target" / "release" / "driver"


def answers(driver, asked):
    """Returns the crate's answers to pairs of a word and a text, in order: pairs of a kind and a text. The kind is "o" for
    markup, "r" for a refusal, and "p" for a panic, which has no text."""
    records = b"".join(word[:1].encode() + text.encode() + b"\xff" for word, text in asked)
    output = subprocess.run([driver, "many"], input=records, stdout=subprocess.PIPE, check=True).stdout
    found = [(record[:1].decode(), record[1:].decode()) for record in output.split(b"\xff")[:-1]]
    assert len(found) == len(asked), "the driver answers each text once"
    return found
