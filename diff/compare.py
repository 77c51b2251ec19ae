#!/usr/bin/env python3
"""Compares the program with the Rust crate on random formulas and documents. README.md says how."""

import argparse
import random
import sys
import tempfile
from collections import Counter
from concurrent.futures import ThreadPoolExecutor
from dataclasses import dataclass, field
from functools import cached_property

import normal
import program
import random_texts
import rust_crate

FORMULAS_IN_A_DOCUMENT = 200
OWN_ERROR = "LaTeX2MathML Error: "
KINDS = {"o": "set", "r": "refused", "p": "refused, where the crate panics"}


@dataclass
class Trial:
    """A text for the program with the program's argument, the text that the crate got instead, and the crate's answer.
    If the crate panics, the refusals are those that name a token after a `\\middle` in the text."""
    word: str
    text: str
    handed: str
    kind: str = ""
    said: str = ""
    refusals: list[str] = field(default_factory=list)
    left_out: str | None = None

    @cached_property
    def right_answers(self):
        """Returns the answers that the program may give: one, unless the crate panics. A line feed follows the markup of a
        formula, and nothing follows the text of a document."""
        if self.kind == "o":
            end = "" if self.word == "document" else "\n"
            return [program.Answer(0, self.from_crate(normal.markup(self.said)) + end, "")]
        refusals = self.refusals if self.kind == "p" else [normal.refusal(self.said)]
        return [program.Answer(1, "", f"{OWN_ERROR}{self.from_crate(refusal)}\n") for refusal in refusals]

    def from_crate(self, answer):
        return normal.from_crate(self.text, self.handed, answer)

    def is_met_by(self, answer):
        """Whether the program may give this answer. In any case it must end by itself."""
        return answer.status in (0, 1) if self.left_out else answer in self.right_answers

    def fits_into_a_document(self):
        """Whether the formula is to be converted, and dollar signs can enclose it."""
        return self.kind == "o" and not self.left_out and normal.is_body(self.text)


class Crate:
    """The crate, called through its driver."""

    def __init__(self, driver):
        self.driver = driver

    def trials(self, word, texts):
        """Returns the crate's answer to each text."""
        hand = normal.document_for_crate if word == "document" else normal.for_crate
        trials = [Trial(word, text, hand(text)) for text in texts]
        answers = rust_crate.answers(self.driver, [(word, trial.handed) for trial in trials])
        for trial, (trial.kind, trial.said) in zip(trials, answers):
            trial.left_out = normal.incomparable(trial.text, trial.handed)
            if word == "document":
                trial.left_out = trial.left_out or self.framed_otherwise(trial)
            if trial.kind == "p" and not trial.left_out:
                trial.refusals = self.refusals_of_middle(trial)
        return trials

    def framed_otherwise(self, trial):
        """Returns why a document cannot be compared because of its dollar signs, or None."""
        if normal.has_escaped_sign(trial.text):
            return "a formula that holds \\$, where the crate ends it"
        framed = normal.formulas_of(trial.handed)
        if framed is None:
            return "dollar signs that the crate pairs otherwise"
        formulas, opened = framed
        if trial.kind != "o":
            refused = [kind != "o" for kind, _ in rust_crate.answers(self.driver, formulas)]
            if not normal.has_one_first_fault(formulas, refused, opened):
                return "a fault before the one that the crate finds first"
        return None

    def refusals_of_middle(self, trial):
        """Returns the refusals that may replace a panic of the crate. The crate gets the text without added braces, because
        they would hide the token after a `\\middle`."""
        formulas = [(trial.word, normal.with_stand_in(trial.text))]
        if trial.word == "document":
            formulas = [("inline", normal.with_stand_in("".join(units))) for units in normal.parts(trial.text)[2::4]]
        asked = [("inline", sized) for _, formula in formulas for sized in normal.sized_behind_middle(formula)]
        return [normal.refusal_of_middle(*answer) for answer in rust_crate.answers(self.driver, asked)]


class Program:
    """The program, run on several texts in parallel."""

    def __init__(self, processes):
        self.path = program.path()
        self.pool = ThreadPoolExecutor(processes)
        self.has_documents = program.knows(self.path, "document")

    def each(self, trials):
        """Returns the answer to each text by itself."""
        return self.pool.map(lambda trial: program.ask(self.path, trial.word, trial.text), trials)

    def together(self, trials):
        """Yields the answers to formulas that have to be converted: many are given to the program as one document. If its
        answer to a document is not the expected one, the formulas of the document are given one by one."""
        size = FORMULAS_IN_A_DOCUMENT
        groups = [trials[start:start + size] for start in range(0, len(trials), size)]
        documents = [Trial("document", "".join(f"${trial.text}$\n" for trial in group), "") for group in groups]
        for group, answer in zip(groups, self.each(documents)):
            wanted = [trial.right_answers[0] for trial in group]
            if answer == program.Answer(0, "".join(one.output for one in wanted), ""):
                yield from wanted
            else:
                yield from self.each(group)


class Comparison:
    """Texts of one kind: how many have the same answer, what is left out and why, and where the two differ."""

    def __init__(self, ours, crate, word, shown):
        self.ours, self.crate, self.word, self.shown = ours, crate, word, shown
        self.alike, self.left_out = Counter(), Counter()
        self.mismatches, self.in_braces = 0, 0

    def look_at(self, texts):
        trials = self.crate.trials(self.word, texts)
        if self.word == "inline" and self.ours.has_documents:
            fit = [trial for trial in trials if trial.fits_into_a_document()]
            self.count(fit, self.ours.together(fit))
            trials = [trial for trial in trials if not trial.fits_into_a_document()]
        self.count(trials, self.ours.each(trials))

    def count(self, trials, answers):
        for trial, answer in zip(trials, answers, strict=True):
            if not trial.is_met_by(answer):
                self.mismatches += 1
                if self.mismatches <= self.shown:
                    self.show(trial.text)
            elif trial.left_out:
                self.left_out[trial.left_out] += 1
            else:
                self.alike[KINDS[trial.kind]] += 1
                self.in_braces += trial.handed.count("{") > trial.text.count("{")

    def show(self, text):
        """Prints the text, and the answers to its shortened form."""
        trial, answer = self.ask(self.shorten(text))
        that_is = f"left out: {trial.left_out}" if trial.left_out else " or ".join(map(str, trial.right_answers))
        print(f"MISMATCH\n  {trial.word:10} {text!r}\n  shortened  {trial.text!r}\n"
              f"  the crate  {KINDS[trial.kind]}: {trial.said!r}\n  that is    {that_is}\n  here       {answer}")

    def shorten(self, text):
        """Returns the text without the pieces that the wrong answer does not need."""
        before = None
        while text != before:
            before, size = text, len(text) // 2
            while size:
                text = self.without_pieces(text, size)
                size //= 2
        return text

    def without_pieces(self, text, size):
        start = 0
        while start < len(text):
            shorter = text[:start] + text[start + size:]
            trial, answer = self.ask(shorter)
            if trial.is_met_by(answer):
                start += size
            else:
                text = shorter
        return text

    def ask(self, text):
        """Returns the answers of the crate and of the program to one text."""
        (trial,) = self.crate.trials(self.word, [text])
        (answer,) = self.ours.each([trial])
        return trial, answer

    def report(self):
        for how, number in [*self.alike.most_common(), ("MISMATCHES", self.mismatches)]:
            print(f"  {number:8} {how}")
        print(f"  {self.in_braces:8} of those that are alike had operands put in braces for the crate")
        for why, number in self.left_out.most_common():
            print(f"  {number:8} left out: {why}")


def arguments():
    parser = argparse.ArgumentParser(description="Compares the program with the Rust crate latex2mathml 0.2.3.")
    parser.add_argument("crate", help="the folder of the crate, which holds its Cargo.toml")
    parser.add_argument("--formulas", type=int, default=100_000, metavar="N")
    parser.add_argument("--documents", type=int, default=10_000, metavar="N")
    parser.add_argument("--seed", type=int, default=1)
    parser.add_argument("--processes", type=int, default=2, choices=range(1, 5), help="how many run in parallel")
    parser.add_argument("--show", type=int, default=20, metavar="N", help="how many mismatches are printed")
    return parser.parse_args()


def main():
    chosen = arguments()
    ours = Program(chosen.processes)
    acting, plain = program.commands()
    unread = {name for name in acting if program.is_unread(ours.path, name)}
    if unread:
        print(f"left out, since the program at hand does not read them yet: {' '.join(sorted(unread))}")
    generator = random.Random(chosen.seed)
    formulas = random_texts.Formulas(generator, acting, plain, lambda name: name not in unread)
    documents = random_texts.Documents(generator, formulas)
    kinds = [("inline", chosen.formulas, formulas.formula)]
    if ours.has_documents:
        kinds.append(("document", chosen.documents, documents.document))
    else:
        print("the program at hand has no documents yet")
    mismatches = 0
    with tempfile.TemporaryDirectory() as folder:
        crate = Crate(rust_crate.build(chosen.crate, f"{folder}/driver"))
        for word, number, make in kinds:
            print(f"{number} texts, {word}, seed {chosen.seed}:", flush=True)
            found = Comparison(ours, crate, word, chosen.show)
            found.look_at([make() for _ in range(number)])
            found.report()
            mismatches += found.mismatches
    sys.exit(1 if mismatches else 0)


if __name__ == "__main__":
    main()
