'use strict';
// Formulas in the syntax trees of unified, for the plugins of remark and rehype.
const { REFUSED, checkOptions, converterOf, warningOf } = require('./rendering.js');

// What a message of a file says about its origin.
const ORIGIN = 'latex2mathml:refused';

const REFERENCES = { amp: '&', lt: '<', gt: '>', quot: '"' };

function characterOf(name) {
    return name.startsWith('#x') ? String.fromCodePoint(parseInt(name.slice(2), 16)) : REFERENCES[name];
}

const unescape = text => text.replace(/&([^;]*);/g, (_, name) => characterOf(name));

function propertiesOf(attributes) {
    const pairs = attributes.matchAll(/([a-z:-]+)="([^"]*)"/g);
    return Object.fromEntries(Array.from(pairs, ([, name, value]) => [name, unescape(value)]));
}

const element = (tagName, properties, children = []) => ({ type: 'element', tagName, properties, children });

const text = value => ({ type: 'text', value });

// A tag that opens or closes an element, or the text between two tags.
const PIECE = /<(?<end>\/?)(?<name>[a-z]+)(?<attributes>[^>]*?)(?<isEmpty>\/?)>|(?<text>[^<]+)/g;

/** Returns the element that the library's markup of a formula describes. */
function elementOf(markup) {
    const root = { children: [] };
    const open = [root];
    for (const { groups } of markup.matchAll(PIECE)) {
        const siblings = open.at(-1).children;
        if (groups.text) {
            siblings.push(text(unescape(groups.text)));
        } else if (groups.end) {
            open.pop();
        } else {
            const node = element(groups.name, propertiesOf(groups.attributes));
            siblings.push(node);
            if (!groups.isEmpty) open.push(node);
        }
    }
    return root.children[0];
}

/** Returns the element that shows a refused formula. */
function refusedElement(latex, reason) {
    return element('code', { className: [REFUSED], title: reason }, [text(latex)]);
}

/** Calls `visit` with each node of a tree and its parent, the outermost first. Where it returns true, the walk goes no deeper. */
function walk(tree, visit) {
    const pending = [{ node: tree }];
    while (pending.length > 0) {
        const { node, parent } = pending.pop();
        if (visit(node, parent)) continue;
        for (const child of [...node.children ?? []].reverse()) pending.push({ node: child, parent: node });
    }
}

/** Returns the text in a node. */
function textOf(node) {
    let found = '';
    walk(node, ({ type, value }) => {
        if (type === 'text') found += value;
    });
    return found;
}

/** Returns a function that renders a formula as an element, as the plugins' options say, and reports it if it is refused. */
function rendererOf(options = {}) {
    checkOptions(options, ['macros', 'annotation', 'strict']);
    const convert = converterOf(options);
    return (latex, isBlock, node, file) => {
        const { markup, reason } = convert(latex, isBlock);
        if (reason === undefined) return elementOf(markup);
        const warning = warningOf(latex, reason);
        if (options.strict) file.fail(warning, node, ORIGIN);
        file.message(warning, node, ORIGIN);
        return refusedElement(latex, reason);
    };
}

module.exports = { rendererOf, textOf, walk };
