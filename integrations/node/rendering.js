'use strict';
// What the plugins share: their options, and what a page shows for a formula.
const { tex, definitionsOf, Refused } = require('./index.js');

// The class of a refused formula.
const REFUSED = 'latex2mathml-refused';

/** Throws an error if an option has none of these names. */
function checkOptions(options, names) {
    const unknown = Object.keys(options).find(name => !names.includes(name));
    if (unknown !== undefined) throw new TypeError(`latex2mathml: there is no option ${JSON.stringify(unknown)}`);
}

/** Returns a function that converts a formula, as the options say, to its markup or to the reason why it is refused. */
function converterOf({ macros = {}, annotation = false }) {
    const definitions = definitionsOf(macros);
    return (latex, isBlock) => {
        try {
            return { markup: tex(latex, isBlock, definitions, { annotation }) };
        } catch (error) {
            if (!(error instanceof Refused)) throw error;
            return { reason: error.message };
        }
    };
}

/** Returns what a warning says about a refused formula, on one line. */
function warningOf(latex, reason) {
    return `${latex.trim().replace(/\s+/g, ' ')}: ${reason}`;
}

module.exports = { REFUSED, checkOptions, converterOf, warningOf };
