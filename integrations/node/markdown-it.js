'use strict';
// A plugin for markdown-it: `$..$` and `\(..\)` are formulas in a line, and `$$..$$`, `\[..\]` and fences of the language `math`
// are formulas in a block of their own.
const { FORMULA, findFormulas } = require('./delimiters.js');
const { REFUSED, checkOptions, converterOf, warningOf } = require('./rendering.js');

const REFERENCES = { '&': '&amp;', '<': '&lt;', '>': '&gt;', '"': '&quot;', '$': '&#x24;' };

const escape = text => text.replace(/[&<>"$]/g, character => REFERENCES[character]);

const isFormula = token => token.type === FORMULA;

// The formulas of a page, each with the number of its line if that is known.
function* formulas(tokens) {
    for (const token of tokens) {
        let line = token.map ? token.map[0] + 1 : NaN;
        if (isFormula(token)) yield [token, line];
        let counted = 0;
        for (const child of token.children?.filter(isFormula) ?? []) {
            line += token.content.slice(counted, child.meta.start).split('\n').length - 1;
            counted = child.meta.start;
            yield [child, line];
        }
    }
}

// Restores the formulas in the alternative texts of images as they were written: such a text cannot contain markup.
function restoreImageTexts(tokens) {
    for (const image of tokens.flatMap(token => token.children ?? []).filter(token => token.type === 'image')) {
        for (const child of image.children.filter(isFormula)) {
            child.type = 'text';
            child.content = child.meta.source;
        }
    }
}

// The place of a formula, as far as it is known: VitePress and Eleventy say which file it is in.
function place(env, line) {
    const file = env.path ?? env.page?.inputPath ?? 'Markdown';
    return Number.isNaN(line) ? file : `${file}:${line}`;
}

const refusedMarkup = (latex, reason) => `<code class="${REFUSED}" title="${escape(reason)}">${escape(latex)}</code>`;

/** The plugin, for `md.use(latex2mathml, options)`. */
module.exports = function latex2mathml(md, options = {}) {
    checkOptions(options, ['macros', 'annotation', 'strict', 'brackets', 'warn']);
    const { strict = false, brackets = true, warn = console.warn } = options;
    const convert = converterOf(options);

    function report(message) {
        if (strict) throw new Error(message);
        warn(message);
    }

    function convertPage(state) {
        restoreImageTexts(state.tokens);
        for (const [token, line] of formulas(state.tokens)) {
            const { markup, reason } = convert(token.content, token.meta.isBlock);
            token.meta.markup = markup ?? refusedMarkup(token.content, reason);
            if (reason !== undefined) report(`${place(state.env, line)}: ${warningOf(token.content, reason)}`);
        }
    }

    findFormulas(md, { brackets });
    md.core.ruler.push(FORMULA, convertPage);
    md.renderer.rules[FORMULA] = (tokens, i) => tokens[i].meta.markup + (tokens[i].block ? '\n' : '');
};
