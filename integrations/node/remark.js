'use strict';
// A plugin for remark: the formulas that remark-math finds, and code of the language `math`, become MathML in rehype.
const { rendererOf, walk } = require('./tree.js');

const isBlock = node => node.type === 'math' || node.type === 'code' && node.lang === 'math';

/** The plugin, for `use(remarkLatex2mathml, options)` after remark-math. */
module.exports = function remarkLatex2mathml(options) {
    const render = rendererOf(options);
    return (tree, file) => walk(tree, node => {
        if (!isBlock(node) && node.type !== 'inlineMath') return false;
        const { tagName, properties, children } = render(node.value, isBlock(node), node, file);
        node.data = { ...node.data, hName: tagName, hProperties: properties, hChildren: children };
        return true;
    });
};
