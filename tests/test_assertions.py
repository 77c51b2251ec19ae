"""Tests the tests: what compares an answer notices each difference, no name hides another, and no case asserts nothing."""
import ast
import itertools
import subprocess
import sys
import unittest
import unittest.mock

from tests import answers
from tests.answers import AnswerCase, Code
from tests.support import ROOT, Case, Has, each_row, requires, run
from tests.texts import error

# what a function asserts by, besides `assert`
ASSERTING = {"fail", "AssertionError"}
# functions whose answer is a condition
CONDITIONS = {"all", "any", "endswith", "exists", "isinstance", "startswith"}


class Differences(unittest.TestCase):
    def test_of_a_command(self):
        """Its status and both of its streams are compared, unless a stream is None."""
        done = subprocess.CompletedProcess(["a"], 1, b"b", b"c")
        for status, stdout, stderr in itertools.product((0, 1), (None, b"", b"b", b"b\n"), (None, b"", b"c", b"c\n")):
            met = status == 1 and stdout in (None, b"b") and stderr in (None, b"c")
            with self.subTest(status=status, stdout=stdout, stderr=stderr):
                self.assertEqual(fails(lambda: Case().expect(done, status, stdout, stderr)), not met)
        self.assertTrue(fails(lambda: Case().expect(subprocess.CompletedProcess(["a"], 0, b"", b"c"))))
        for part, met in ((b"b", True), (b"", True), (b"c", False), (b"bb", False)):
            self.assertEqual(fails(lambda: Case().expect(done, 1, Has(part), b"c")), not met)
            self.assertEqual(fails(lambda: Case().expect(done, 0, Has(part), b"c")), True)

    def test_of_a_program(self):
        """An answer, a refusal, or neither: its status and both of its streams count."""
        for done, due in (((0, b"x\n", b""), (Code.DONE, b"x")), ((0, b"y\n", b""), (Code.DONE, b"y")), ((1, b"", error("r")), (Code.REFUSED, b"r")),
                          ((1, b"x\n", b""), None), ((0, b"x\n", b"e"), None), ((1, b"x", error("r")), None)):
            done = subprocess.CompletedProcess(["a"], *done)
            with self.subTest(done), unittest.mock.patch.multiple(answers, run=lambda *_, **__: done, program=str):
                found = answers.by_program("inline", b"x")
                self.assertEqual(found if isinstance(found[0], Code) else None, due)

    def test_of_a_case(self):
        """The results of the program and of the library for C are compared, each with its code."""
        results = list(itertools.product((Code.DONE, Code.REFUSED, "status 1"), (b"x", b"y")))
        for due, *found in itertools.product(results, repeat=3):
            ways = [(f"way {number}", lambda *_, result=result: result) for number, result in enumerate(found)]
            with self.subTest(due=due, found=found), unittest.mock.patch.object(answers, "WAYS", ways):
                differs = fails(lambda: AnswerCase().comes_to("here", "inline", b"x", *due))
                self.assertEqual(differs, found != [due, due])


class Rows(Case):
    def test_each_is_a_case(self):
        """It is named by its key, and is given what is in the row. No case replaces another."""
        def add(self, *numbers):
            return sum(numbers)

        made = type("Made", (Case,), {"add": each_row({"one": (1,), "two, and more": (1, 2, 3)})(add)})
        names = unittest.defaultTestLoader.getTestCaseNames(made)
        self.assertEqual({name: getattr(made(name), name)() for name in names}, {"test_one": 1, "test_two_and_more": 6})
        for table in ({"a b": (), "a, b": ()}, {"one": ()}):
            with self.subTest(table), self.assertRaises(NameError):
                type("Twice", (made,), {"add": each_row(table)(add)})


def fails(assertion):
    try:
        assertion()
    except AssertionError:
        return True
    return False


@requires("python:pyflakes")
class Names(Case):
    """pyflakes finds, among others, a name that is defined twice: it hides the first, such as a case that then never runs."""

    def expect_names(self, told, *files, text=""):
        self.expect(run([sys.executable, "-m", "pyflakes", *files], stdin=text.encode(), cwd=ROOT), int(told != ""), told.encode())

    def test_the_sources_have_no_such_name(self):
        scripts = [it.relative_to(ROOT) for it in ROOT.glob("tools/*") if it.is_file() and it.read_bytes().startswith(b"#!/usr/bin/env python3")]
        self.assertGreater(len(scripts), 3)
        self.expect_names("", "tests", "tools", "bench", "diff", "integrations", *scripts)

    @each_row({
        "twice": ("def f(): pass\nclass A:\n    def test_x(self): pass\n    def test_x(self): pass\ndef f(): pass\n",
                  "<stdin>:4:5: redefinition of unused 'test_x' from line 3\n<stdin>:5:1: redefinition of unused 'f' from line 1\n"),
        "in two classes": ("class A:\n    def f(self): pass\nclass B:\n    def f(self): pass\n", ""),
    })
    def defined(self, text, told):
        self.expect_names(told, text=text)


class Assertions(unittest.TestCase):
    def test_kinds(self):
        """Assertions that cannot fail, and others."""
        for line, is_empty in {
            "self.assertTrue(a, b)": True, "self.assertFalse(a, b.c)": True, "self.assertTrue(a, 'b')": True, "self.assertTrue(a, msg='b')": False,
            "self.assertTrue(a in b, b)": False, "self.assertFalse(a, ' '.join(a))": False, "self.assertTrue(a, a)": True,
            "self.assertTrue(a.b(), 'c')": True, "self.assertTrue(a.exists(), 'b')": False, "self.assertTrue(any(a), b)": False,
            "self.assertTrue(True)": True, "self.assertTrue((a, b))": True, "self.assertTrue(a)": False, "self.assertTrue([a])": True,
            "self.assertEqual(a, a)": True, "self.assertEqual(f(a), f(a))": True, "self.assertEqual(a, b)": False, "self.assertIn('', a)": True,
            "self.assertIn(a, (a, b))": False, "assert a, b": False, "assert (a, b)": True, "assert 'a'": True, "assert a == a": True,
            "assert a is not None": False, "self.assertTrue(a == a)": True, "self.assertLessEqual(a, a)": True,
            "self.expect(a, 1, Has(b''))": True, "self.expect(a, 1, Has(b'b'))": False,
            "self.assertGreaterEqual(len(a), 0)": True, "self.assertGreater(len(a), 0)": False, "assert f'{a}'": True, "assert len(a) >= 0": True,
        }.items():
            with self.subTest(line):
                self.assertEqual(bool(empty_assertions(ast.parse(line))), is_empty)

    def test_cases_without_an_assertion(self):
        text = ("def f(): g()\ndef g(x): assert x\nclass A:\n    def test_a(self): self.f()\n"
                "    def test_b(self): h()\n    def test_c(self): pass\n    @each_row({})\n    def d(self): g()\n    @support.each_row({})\n"
                "    def e(self): h()\n    def i(self): pass\n")
        self.assertEqual(cases_without_an_assertion([("test_m", ast.parse(text))]),
                         ["test_m.py:5: test_b", "test_m.py:6: test_c", "test_m.py:10: e"])

    def test_the_tests(self):
        modules = [(file.stem, ast.parse(file.read_text(encoding="utf-8"))) for file in sorted((ROOT / "tests").glob("*.py"))]
        self.assertEqual([f"{name}.py:{line}" for name, module in modules for line in empty_assertions(module)], [])
        self.assertEqual(cases_without_an_assertion(modules), [])


def empty_assertions(module):
    """The lines of the assertions that cannot fail, whatever their operands are."""
    return [node.lineno for node in ast.walk(module) if is_empty(node)]


def is_empty(node):
    match node:
        case ast.Assert(test=test):
            return is_always_true(test)
        case ast.Compare(left=left, ops=[relation], comparators=[right]):
            return is_met(type(relation).__name__, left, right)
        case ast.Call(func=ast.Name(id="Has"), args=[part]):
            return is_met("In", part, None)
        case ast.Call(func=ast.Attribute(attr="assertTrue" | "assertFalse"), args=[operand, *messages]):
            # what is intended as an operand would be the message
            return is_always_true(operand) or not all(is_message(it, operand) for it in messages)
        case ast.Call(func=ast.Attribute(attr=name), args=[left, right, *_]) if name.startswith("assert"):
            return is_met(name.removeprefix("assert"), left, right)
    return False


def is_always_true(node):
    is_literal = isinstance(node, (ast.Tuple, ast.List, ast.Dict, ast.JoinedStr, ast.Lambda, ast.Constant))
    return is_literal or isinstance(node, ast.Compare) and is_empty(node)


def is_met(relation, left, right):
    """Whether a relation is between the same, or one of any text or any length."""
    match relation, left, right:
        case "In", ast.Constant(value="" | b""), _:
            return True
        case "GreaterEqual" | "GtE", ast.Call(func=ast.Name(id="len")), ast.Constant(value=0):
            return True
    return right is not None and ast.dump(left) == ast.dump(right)


def is_message(node, operand):
    """Whether it is one, as after a condition, or if it shows what should be true. Otherwise it may be meant as an operand."""
    is_condition = isinstance(operand, (ast.Compare, ast.BoolOp)) or isinstance(operand, ast.Call) and name_of(operand.func) in CONDITIONS
    return is_condition or any(ast.dump(operand) == ast.dump(it) for it in ast.walk(node) if it is not node)


def name_of(node):
    return getattr(node, "attr", None) or getattr(node, "id", None)


def cases_without_an_assertion(modules):
    """The cases in which nothing asserts: neither they, nor a function that they call, by its name in any of the modules."""
    functions = [(name, it) for name, module in modules for it in ast.walk(module) if isinstance(it, ast.FunctionDef)]
    asserting = set(ASSERTING)
    while found := {it.name for _, it in functions if it.name not in asserting and asserts(it, asserting)}:
        asserting |= found
    cases = [(name, it) for name, it in functions if name.startswith("test_") and is_case(it)]
    return [f"{name}.py:{it.lineno}: {it.name}" for name, it in cases if not asserts(it, asserting)]


def is_case(function):
    """Whether it is one, or makes one from each row of a table."""
    return function.name.startswith("test_") or any(name_of(getattr(it, "func", it)) == "each_row" for it in function.decorator_list)


def asserts(function, asserting):
    names = {name_of(it) or "" for it in ast.walk(function)}
    return any(name in asserting or name.startswith("assert") for name in names) or any(
        isinstance(it, ast.Assert) or isinstance(it, ast.keyword) and it.arg == "check" for it in ast.walk(function))
