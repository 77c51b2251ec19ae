'use strict';
// The rules by which markdown-it finds formulas between delimiters.

// The type of a formula's token. The token's `content` is the formula. Its `meta` has `isBlock`, the `source`, which has the
// delimiters if there are any, and, for a formula in a line, the place where it starts.
const FORMULA = 'latex2mathml';

const DOLLARS = [
    { open: '$$', close: '$$', isBlock: true },
    { open: '$', close: '$', isBlock: false },
];
const BRACKETS = [
    { open: '\\(', close: '\\)', isBlock: false },
    { open: '\\[', close: '\\]', isBlock: true },
];

// The place of the delimiter that closes a formula, or -1 with the place up to which there is none. The character after a backslash
// is skipped. Code that begins in a formula is code.
function findEnd(text, start, close) {
    let i = start;
    for (; i < text.length && text[i] !== '`'; i++) {
        if (text.startsWith(close, i)) return { end: i };
        if (text[i] === '\\') i++;
    }
    return { end: -1, limit: i };
}

// The searches without a result, for each state of the parser. None is repeated, so that the time stays linear.
const failures = new WeakMap();

function failuresOf(state) {
    if (!failures.has(state)) failures.set(state, new Map());
    return failures.get(state);
}

// The end that `findEnd` finds. If there is none between a place and the next code, there is none after a later place there.
function findEndOnce(state, text, start, close) {
    const found = failuresOf(state);
    const search = `${close} ${text.length}`;
    if (start < found.get(search)) return -1;
    const { end, limit } = findEnd(text, start, close);
    if (end < 0) found.set(search, limit);
    return end;
}

const isBlank = text => text.trim() === '';

// Whether the text between single dollar signs is not just prose between two prices.
const isBetweenDollars = (latex, next) => latex === latex.trim() && !/[0-9]/.test(next);

function addFormula(state, { open, close, isBlock }, written, meta) {
    const token = state.push(FORMULA, 'math', 0);
    token.content = written.trim();
    token.meta = { isBlock, source: open + written + close, ...meta };
    return token;
}

// The rule for a formula within other text.
function inlineRule(delimiters) {
    return (state, silent) => {
        const text = state.src.slice(0, state.posMax);
        const delimiter = delimiters.find(({ open }) => text.startsWith(open, state.pos));
        if (!delimiter) return false;
        const { open, close } = delimiter;
        const start = state.pos + open.length;
        const end = findEndOnce(state, text, start, close);
        const latex = text.slice(start, Math.max(start, end));
        const isFound = !isBlank(latex) && (open !== '$' || isBetweenDollars(latex, text.charAt(end + 1)));
        if (!isFound) return skipDollars(state, silent, open);
        if (!silent) addFormula(state, delimiter, latex, { start });
        state.pos = end + close.length;
        return true;
    };
}

// Reads dollar signs that open no formula as text. Brackets are left to the rule for backslashes.
function skipDollars(state, silent, open) {
    if (!open.startsWith('$')) return false;
    if (!silent) state.pending += open;
    state.pos += open.length;
    return true;
}

// The text of a line, without what precedes it in the block.
function lineOf(state, line) {
    return state.src.slice(state.bMarks[line] + state.tShift[line], state.eMarks[line]).trimEnd();
}

// A line with code, or one that opens a code fence.
const CODE = /`|^ *~~~/;

// The first line from `startLine` on that closes the block, and whether nothing follows there; or the line at which the block ends
// without being closed. No line of a formula is blank or has code.
function findClosingLine(state, startLine, endLine, { open, close }) {
    let line = startLine;
    for (; line < endLine && !state.isEmpty(line) && state.sCount[line] >= state.blkIndent; line++) {
        const text = lineOf(state, line);
        if (CODE.test(text)) break;
        const { end } = findEnd(text, line === startLine ? open.length : 0, close);
        if (end >= 0) return { line, isClosed: end + close.length === text.length };
    }
    return { line, isClosed: false };
}

// The line that closes the block, or -1. Lines before one at which a search failed are not searched again.
function closingLine(state, startLine, endLine, delimiter) {
    const found = failuresOf(state);
    const failed = found.get(delimiter.close);
    if (failed && failed.from <= startLine && startLine < failed.to && failed.indent <= state.blkIndent) return -1;
    const { line, isClosed } = findClosingLine(state, startLine, endLine, delimiter);
    if (isClosed) return line;
    found.set(delimiter.close, { from: startLine, to: line, indent: state.blkIndent });
    return -1;
}

// The rule for a formula on lines of its own. Signs at the beginning of a line make no list or heading there.
function blockRule(delimiters) {
    return (state, startLine, endLine, silent) => {
        const indent = state.sCount[startLine];
        const place = state.bMarks[startLine] + state.tShift[startLine];
        const delimiter = delimiters.find(({ open, isBlock }) => isBlock && state.src.startsWith(open, place));
        if (!delimiter || indent - state.blkIndent >= 4) return false;
        const lastLine = closingLine(state, startLine, endLine, delimiter);
        if (lastLine < 0) return false;
        const lines = state.getLines(startLine, lastLine + 1, indent, false).trim();
        const latex = lines.slice(delimiter.open.length, -delimiter.close.length);
        if (isBlank(latex)) return false;
        if (silent) return true;
        state.line = lastLine + 1;
        const token = addFormula(state, delimiter, latex);
        token.block = true;
        token.map = [startLine, state.line];
        return true;
    };
}

// Whether a token is a code fence that is a formula.
const isMathFence = token => token.type === 'fence' && /^math(\s|$)/.test(token.info.trim());

// Turns the code fences of the language `math` into formulas.
function fenceRule(state) {
    for (const token of state.tokens.filter(isMathFence)) {
        token.type = FORMULA;
        token.meta = { isBlock: true, source: token.content };
    }
}

/** Makes the parser find formulas between dollar signs, in fences and, if `brackets` is true, between brackets with backslashes. */
function findFormulas(md, { brackets = true } = {}) {
    const delimiters = brackets ? [...DOLLARS, ...BRACKETS] : DOLLARS;
    md.inline.ruler.before('escape', FORMULA, inlineRule(delimiters));
    md.block.ruler.before('fence', FORMULA, blockRule(delimiters), { alt: ['paragraph', 'reference', 'blockquote', 'list'] });
    md.core.ruler.push(`${FORMULA}_fence`, fenceRule);
}

module.exports = { FORMULA, findFormulas };
