// Reads pairs of macros and a formula as JSON, and writes the answer to each formula, or why the macros are refused.
const { definitionsOf, tex } = require('latex2mathml-proved');

function answerOf([macros, latex]) {
    try {
        return tex(latex, false, definitionsOf(macros));
    } catch (error) {
        return error.message.replace(/^latex2mathml: /, '');
    }
}

process.stdout.write(JSON.stringify(JSON.parse(require('node:fs').readFileSync(0, 'utf8')).map(answerOf)));
