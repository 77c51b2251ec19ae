'use strict';
// LaTeX formulas to MathML.
const fs = require('fs');
const path = require('path');

// The addon that was built here, or else the one that came with the package.
const built = path.join(__dirname, 'build/Release/latex2mathml.node');
const addon = require(fs.existsSync(built) ? built : './prebuilt/latex2mathml.node');
const { macroDefinitions } = require('./macros.js');

/**
 * The error for a refused formula, document or definition. The message is the reason. It may quote the formula: escape it in HTML.
 * `place` is the byte of the text where the refused part begins, if it is known. `line` and `column` are the same place, in
 * characters, counted from 1.
 */
class Refused extends Error {
    get name() {
        return 'Refused';
    }
}

const CODE = /^LATEX2MATHML_(DEFINITION_)?REFUSED$/;

function call(convert, ...words) {
    try {
        return convert(...words);
    } catch (error) {
        throw CODE.test(error.code) ? new Refused(error.message) : error;
    }
}

/** Returns the place of a byte in a text, with its line and column. */
function positionOf(text, place) {
    const lines = Buffer.from(text).toString('utf8', 0, place).split('\n');
    return { place, line: lines.length, column: Array.from(lines.at(-1)).length + 1 };
}

/**
 * Returns the `math` element of a formula in LaTeX as authors write it, which may use the macros of a text of definitions. With the
 * option `annotation`, the element also contains the formula itself, as an annotation.
 */
function tex(formula, block = false, definitions = '', { annotation = false } = {}) {
    try {
        return addon.tex(formula, block, definitions, annotation);
    } catch (error) {
        const [isRefused, isDefinition] = CODE.exec(error.code) ?? [];
        if (!isRefused) throw error;
        throw Object.assign(new Refused(error.message), positionOf(isDefinition ? definitions : formula, error.place));
    }
}

/** Returns a text of definitions for `tex`, from the option `macros` of the plugins. */
function definitionsOf(macros) {
    if (typeof macros === 'string') {
        tex('', false, macros);
        return macros;
    }
    return macroDefinitions(macros, definition => tex('', false, definition));
}

const CHARACTERS = { '&amp;': '&', '&lt;': '<', '&gt;': '>', '&quot;': '"', '&#x24;': '$' };

/** Returns the markup of `formula` or `document`, unless parts of it are marked as errors and `strict` forbids that. */
function checked(markup, strict) {
    const marks = strict ? Array.from(markup.matchAll(/<mtext>\[PARSE ERROR: (.*?)\]<\/mtext>/gs), ([, mark]) => mark) : [];
    if (marks.length === 0) return markup;
    throw new Refused(`marked as an error: ${marks.join(', ').replace(/&[^;]*;/g, reference => CHARACTERS[reference] ?? reference)}`);
}

/** Returns the `math` element of a formula as the Rust crate reads it, for a line of text or for a block of its own. */
function formula(latex, block = false, strict = false) {
    return checked(call(addon.formula, latex, block), strict);
}

/** Returns the document with each formula between dollar signs replaced by its `math` element, as the Rust crate reads it. */
function document(text, strict = false) {
    return checked(call(addon.document, text), strict);
}

module.exports = { tex, definitionsOf, formula, document, Refused };
