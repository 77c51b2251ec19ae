'use strict';
// The calls of the package.
const assert = require('node:assert/strict');
const { once } = require('node:events');
const test = require('node:test');
const { Worker } = require('node:worker_threads');
const { tex, definitionsOf, formula, document, Refused } = require('latex2mathml-proved');
const { UNCLOSED, answerOf, texAnswerOf, folder } = require('./shared.cjs');

for (const latex of ['', 'x<y', '\\frac{a}{b}', 'é𝑥\0', '$', '\\', 'x'.repeat(100_000)]) {
    test(`the formula ${JSON.stringify(latex.slice(0, 20))}`, () => {
        assert.equal(formula(latex, false), answerOf(latex));
        assert.equal(formula(latex, true), answerOf(latex, 'block'));
    });
}

test('a formula is inline unless it is called a block', () => assert.equal(formula('x'), answerOf('x')));

test('half a character', () => assert.equal(formula('\ud835'), answerOf('\ufffd')));

test('documents', () => {
    assert.equal(document(''), '');
    assert.equal(document('é \\$5 $x$ $$y$$\0'), `é &#x24;5 ${answerOf('x')} ${answerOf('y', 'block')}\0`);
});

for (const [call, reason] of [
    [() => formula('{x', true), UNCLOSED],
    [() => document('$a$ ${x$'), UNCLOSED],
    [() => document('$'), 'The number of dollar sings found is invalid.'],
]) {
    test(`refused: ${call}`, () => {
        assert.equal(Refused.name, 'Refused');
        assert.throws(call, { constructor: Refused, name: 'Refused', message: reason });
    });
}

for (const call of [() => formula(), () => formula(3), () => formula(null), () => formula('x', 1), () => formula(['x'])]) {
    test(`no text: ${call}`, () => assert.throws(call, { constructor: TypeError, message: /formula\(/ }));
}
for (const call of [() => tex(), () => tex(3), () => tex('x', 1), () => tex('x', true, {}), () => tex('x', true, null), () => tex('x', true, '', { annotation: 1 })]) {
    test(`no text: ${call}`, () => assert.throws(call, { constructor: TypeError, message: /tex\(/ }));
}
for (const call of [() => document(), () => document({})]) {
    test(`no text: ${call}`, () => assert.throws(call, { constructor: TypeError, message: /document\(/ }));
}

for (const latex of ['', 'x_i^2', '\\frac12', 'é𝑥', '\\text{if } x', 'x'.repeat(100_000)]) {
    test(`the formula of an author ${JSON.stringify(latex.slice(0, 20))}`, () => {
        assert.equal(tex(latex), texAnswerOf(latex));
        assert.equal(tex(latex, true), texAnswerOf(latex, 'block'));
    });
}

// the place counts bytes, and é has two
for (const [call, message, place, line, column] of [
    [() => tex('é + \\foo'), 'unknown command \\foo at 5', 5, 1, 5],
    [() => tex('x', false, '\\def\\a{y} x'), 'not a definition at 10', 10, 1, 11],
    [() => tex('\\foo'), 'unknown command \\foo at 0', 0, 1, 1],
    [() => tex('x\né\n 𝟙\\foo'), 'unknown command \\foo at 10', 10, 3, 3],
    [() => tex('\n', false, '% é\n\nx'), 'not a definition at 6', 6, 3, 1],
]) {
    test(`a place: ${call}`, () => assert.throws(call, { constructor: Refused, message, place, line, column }));
}

test('a refusal of the crate has no place', () => {
    assert.throws(() => formula('{x'), error => !('place' in error || 'line' in error || 'column' in error));
});

for (const latex of ['x<y', 'x', '\\def\\a{x} \\a % é &']) {
    test(`an annotation: ${latex}`, () => {
        for (const [block, display] of [[false, 'inline'], [true, 'block']]) {
            assert.equal(tex(latex, block, '', { annotation: true }), texAnswerOf(latex, display, '--annotation'));
        }
        assert.equal(tex(latex, false, '', {}), texAnswerOf(latex));
    });
}

test('definitions', () => assert.equal(tex('\\a', true, '\\def\\a{x}\n'), texAnswerOf('x', 'block')));

// macros, a formula that uses them, and one without macros that means the same
for (const [macros, latex, meaning] of [
    [{ '\\RR': '\\mathbb{R}' }, 'x \\in \\RR', 'x \\in \\mathbb{R}'],
    [{ RR: '\\mathbb{R}' }, '\\RR', '\\mathbb{R}'],
    [{ norm: '\\lVert #1 \\rVert' }, '\\norm{x}^2', '\\lVert x\\rVert^2'],
    [{ second: '#2' }, '\\second{a}{b}', 'b'],
    [{ bra: ['\\langle #1 |', 1] }, '\\bra{x}', '\\langle x |'],
    [{ none: ['x', 1] }, '\\none{a}b', 'xb'],
    [{ x: ['y'] }, '\\x', 'y'],
    [{ '\\+': '\\oplus' }, 'a\\+b', 'a\\oplus b'],
    [{ a: 'x % why' }, '\\a y', 'xy'],
    [{ a: '\\b', b: 'x' }, '\\a', 'x'],
    [{ twice: '\\def\\b##1{##1##1}\\b' }, '\\twice x', 'xx'],
    [{}, 'x', 'x'],
    ['\\newcommand{\\R}{\\mathbb{R}} % and\n\\DeclareMathOperator{\\rank}{rank}', '\\rank\\R', '\\operatorname{rank}\\mathbb{R}'],
    ['', 'x', 'x'],
]) {
    test(`macros: ${JSON.stringify(macros)}`, () => assert.equal(tex(latex, false, definitionsOf(macros)), texAnswerOf(meaning)));
}

for (const [macros, message] of [
    [{ fine: 'x', broken: '{x' }, 'macros: \\broken: { is not closed: {x'],
    [{ a: 'x}{y' }, 'macros: \\a: not a definition: x}{y'],
    [{ a: ['#2', 1] }, 'macros: \\a: a body has no such argument: #2'],
    ['\\usepackage{bm}', 'not a definition at 0'],
]) {
    test(`macros that are refused: ${JSON.stringify(macros)}`, () => {
        assert.throws(() => definitionsOf(macros), { constructor: Refused, message });
    });
}

for (const [macros, message] of [
    [{ '': 'x' }, '"" is not the name of a command: letters, or one other character'],
    [{ a: () => 'x' }, '\\a is neither a text nor a list of a text and a number of arguments: undefined'],
    [{ a: ['x', NaN] }, '\\a has a number of arguments that is not from 0 to 9: null'],
    [undefined, 'neither a mapping from names to TeX nor a text of definitions'],
    [['x'], 'neither a mapping from names to TeX nor a text of definitions'],
]) {
    test(`no macros: ${JSON.stringify(macros)}`, () => {
        assert.throws(() => definitionsOf(macros), { constructor: TypeError, message: `latex2mathml: macros: ${message}` });
    });
}

test('a marked error', () => {
    assert.equal(formula('x \\le y'), answerOf('x \\le y'));
    assert.equal(formula('x \\leq y', false, true), answerOf('x \\leq y'));
    assert.equal(document('$x$', true), answerOf('x'));
});

for (const [call, command] of [
    [() => formula('x \\le y', false, true), 'le'],
    [() => formula('\\<', true, true), '<'],
    [() => document('$x$ $x \\le y$', true), 'le'],
]) {
    test(`a marked error where none may be: ${call}`, () => {
        assert.throws(call, { constructor: Refused, message: `marked as an error: Undefined("Command(\\"${command}\\")")` });
    });
}

test('each marked error is named', () => {
    const message = 'marked as an error: Undefined("Command(\\"le\\")"), Undefined("Command(\\"foo\\")")';
    assert.throws(() => document('$x \\le y$ $\\foo$', true), { constructor: Refused, message });
});

test('workers', async () => {
    const script = "require('node:worker_threads').parentPort.postMessage(require('latex2mathml-proved').formula('x'))";
    const answers = await Promise.all([1, 2, 3].map(() => once(new Worker(script, { eval: true }), 'message')));
    assert.deepEqual(answers, Array(3).fill([answerOf('x')]));
});

test('a module that imports the package', async () => {
    const imported = await import(`${folder}/index.js`);
    assert.equal(imported.formula('x'), answerOf('x'));
});

