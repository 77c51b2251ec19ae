'use strict';
// A plugin for rehype: elements with the classes that remark-math gives to formulas become MathML.
const { rendererOf, textOf, walk } = require('./tree.js');

const MATH = ['language-math', 'math-inline', 'math-display'];

const classesOf = node => [node.properties?.className ?? []].flat();

const isMath = node => classesOf(node).some(name => MATH.includes(name));

// The element that has the class of a formula: this one, or the code in it if it is a fence.
function mathIn(node) {
    const [code, ...others] = node.tagName === 'pre' ? node.children : [];
    const isFence = code?.tagName === 'code' && others.length === 0;
    const math = isFence ? code : node;
    return isMath(math) ? { math, isBlock: isFence || classesOf(math).includes('math-display') } : undefined;
}

/** The plugin, for `use(rehypeLatex2mathml, options)`. */
module.exports = function rehypeLatex2mathml(options) {
    const render = rendererOf(options);
    return (tree, file) => walk(tree, (node, parent) => {
        const found = parent && mathIn(node);
        if (!found) return false;
        const element = render(textOf(found.math), found.isBlock, node, file);
        parent.children[parent.children.indexOf(node)] = element;
        return true;
    });
};
