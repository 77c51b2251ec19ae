'use strict';
// What the tests share. tests/test_node.py sets LATEX2MATHML and TEX2MATHML, the paths of the programs, and NODE_PATH, where the
// package is found.
const { execFileSync } = require('node:child_process');
const { dirname } = require('node:path');

// Why `{x` is refused.
const UNCLOSED = 'The token "RBrace" is expected, but the token "EOF" is found."';

// The folder of the package.
const folder = dirname(require.resolve('latex2mathml-proved'));

// The standard output of a program, without the line feed at its end.
function outputOf(program, words, input) {
    return execFileSync(program, words, { input, encoding: 'utf8', maxBuffer: Infinity }).replace(/\n$/, '');
}

// The answer of `latex2mathml` to a formula, in a line or as a `block`.
const answerOf = (latex, word = 'inline') => outputOf(process.env.LATEX2MATHML, [word], latex);

// The answer of `tex2mathml`.
const texAnswerOf = (latex, display = 'inline', ...words) => outputOf(process.env.TEX2MATHML, ['--display', display, ...words], latex);

module.exports = { UNCLOSED, answerOf, texAnswerOf, folder };
