'use strict';
// The plugins for remark and rehype, on trees as remark-math and remark-rehype make them.
const assert = require('node:assert/strict');
const test = require('node:test');
const rehypeLatex2mathml = require('latex2mathml-proved/rehype');
const remarkLatex2mathml = require('latex2mathml-proved/remark');
const { texAnswerOf } = require('./shared.cjs');

const UNKNOWN = 'unknown command \\foo at 0';

const text = value => ({ type: 'text', value });
const element = (tagName, className, ...children) => ({
    type: 'element', tagName, properties: className ? { className } : {}, children,
});
const root = (...children) => ({ type: 'root', children });

// A file for a run, which keeps the messages.
function fileOf() {
    const messages = [];
    return {
        messages,
        message: (...words) => messages.push(words),
        fail(...words) {
            throw new Error(words[0]);
        },
    };
}

// A tree after a run of a plugin, and the messages.
function run(plugin, tree, options) {
    const file = fileOf();
    assert.equal(plugin(options)(tree, file), undefined);
    return [tree, file.messages];
}

const REFERENCES = { '&': '&amp;', '<': '&lt;', '>': '&gt;', '$': '&#x24;' };
const escape = value => value.replace(/[&<>$]/g, character => REFERENCES[character]);

// The markup of a node, as the library writes it.
function markupOf({ type, tagName, properties, children, value }) {
    if (type === 'text') return escape(value);
    const attributes = Object.entries(properties).map(([name, word]) => ` ${name}="${escape(word)}"`).join('');
    if (tagName === 'mspace') return `<${tagName}${attributes}/>`;
    return `<${tagName}${attributes}>${children.map(markupOf).join('')}</${tagName}>`;
}

// Formulas with each kind of reference, text and attribute.
const FORMULAS = ['x', '', 'a<b>c\\&\\$', '\\text{a "b" c}', '\\frac{a}{b}\\quad\\sqrt[3]{x}', '\\cancel{x}', '\\begin{pmatrix}a&b\\\\c&d\\end{pmatrix}',
                  '\\left(\\sum_{i=1}^n x_i\\right)', '𝑥\\mathbb{R}', '\\lim_{x\\to0}'];

for (const latex of FORMULAS) {
    test(`remark: ${latex}`, () => {
        const tree = root({ type: 'math', value: latex }, { type: 'paragraph', children: [text('a'), { type: 'inlineMath', value: latex }] });
        const [{ children: [block, paragraph] }, messages] = run(remarkLatex2mathml, tree);
        for (const [{ data }, word] of [[block, 'block'], [paragraph.children[1], 'inline']]) {
            const { hName: tagName, hProperties: properties, hChildren: children } = data;
            assert.equal(markupOf({ type: 'element', tagName, properties, children }), texAnswerOf(latex, word));
        }
        assert.deepEqual(paragraph.children[0], text('a'));
        assert.deepEqual(messages, []);
    });

    test(`rehype: ${latex}`, () => {
        const tree = root(element('p', undefined, text('a'), element('code', ['language-math', 'math-inline'], text(latex))));
        const [{ children: [{ children: [before, math] }] }, messages] = run(rehypeLatex2mathml, tree);
        assert.equal(markupOf(math), texAnswerOf(latex));
        assert.deepEqual(before, text('a'));
        assert.deepEqual(messages, []);
    });
}

test('remark: what remark-math says of a node gives way, and what others say stays', () => {
    const data = { hName: 'pre', hChildren: [element('code', ['language-math', 'math-display'], text('x'))], id: 'a' };
    const [{ children: [{ data: { hName, hChildren, id } }] }] = run(remarkLatex2mathml, root({ type: 'math', value: 'x', data }));
    assert.deepEqual([hName, hChildren.map(markupOf), id], ['math', ['<mi>x</mi>'], 'a']);
});

test('remark: code', () => {
    const [{ children: [math, other, inline] }] = run(remarkLatex2mathml, root(
        { type: 'code', lang: 'math', value: 'x' }, { type: 'code', lang: 'js', value: 'x' }, { type: 'inlineCode', value: 'x' }));
    assert.equal(math.data.hProperties.display, 'block');
    assert.deepEqual([other, inline], [{ type: 'code', lang: 'js', value: 'x' }, { type: 'inlineCode', value: 'x' }]);
});

// elements, and how the formula in each is shown
for (const [of, node, word] of [
    ['remark-math 6, in a block', element('pre', undefined, element('code', ['language-math', 'math-display'], text('x'))), 'block'],
    ['a fence', element('pre', undefined, element('code', ['language-math'], text('x'))), 'block'],
    ['code', element('code', ['language-math'], text('x')), 'inline'],
    ['remark-math 5, in a block', element('div', ['math', 'math-display'], text('x')), 'block'],
    ['remark-math 5, in a line', element('span', ['math', 'math-inline'], text('x')), 'inline'],
    ['a class that is no list', element('span', 'math-inline', text('x')), 'inline'],
    ['several texts', element('span', ['math-inline'], element('b', undefined, text('a')), text('b')), 'inline'],
]) {
    test(`rehype: ${of}`, () => {
        const [{ children: [before, math, behind] }] = run(rehypeLatex2mathml, root(text('a'), node, text('b')));
        assert.equal(markupOf(math), texAnswerOf(of === 'several texts' ? 'ab' : 'x', word));
        assert.deepEqual([before, behind], [text('a'), text('b')]);
    });
}

test('rehype: other elements stay', () => {
    const tree = () => root({ type: 'doctype' }, element('pre', undefined, element('code', ['language-js'], text('x'))), element('p', ['math']));
    assert.deepEqual(run(rehypeLatex2mathml, tree())[0], tree());
});

for (const [plugin, tree, found] of [
    [remarkLatex2mathml, () => root({ type: 'math', value: '\\foo\n<' }), ({ data }) => [data.hName, data.hProperties, data.hChildren]],
    [rehypeLatex2mathml, () => root(element('div', ['math-display'], text('\\foo\n<'))), it => [it.tagName, it.properties, it.children]],
]) {
    test(`${plugin.name}: a refused formula`, () => {
        const node = tree().children[0];
        const [{ children: [shown] }, messages] = run(plugin, root(node));
        assert.deepEqual(found(shown), ['code', { className: ['latex2mathml-refused'], title: UNKNOWN }, [text('\\foo\n<')]]);
        assert.deepEqual(messages, [[`\\foo <: ${UNKNOWN}`, node, 'latex2mathml:refused']]);
    });

    test(`${plugin.name}: strict`, () => {
        assert.throws(() => run(plugin, tree(), { strict: true }), { message: `\\foo <: ${UNKNOWN}` });
        assert.doesNotThrow(() => run(plugin, root(), { strict: true }));
    });

    test(`${plugin.name}: an annotation`, () => {
        const node = JSON.parse(JSON.stringify(tree()).replace(/foo/g, 'p'));
        const [{ children: [shown] }] = run(plugin, node, { macros: { p: 'x' }, annotation: true });
        const [tagName, properties, children] = found(shown);
        const markup = texAnswerOf('x\n<', 'block', '--annotation').replace(/x(?=\n&lt;)/g, '\\p');
        assert.equal(markupOf({ type: 'element', tagName, properties, children }), markup);
    });

    test(`${plugin.name}: macros`, () => {
        const [, messages] = run(plugin, tree(), { macros: { foo: 'x' } });
        assert.deepEqual(messages, []);
        assert.throws(() => plugin({ macros: { foo: '{' } }), { message: 'macros: \\foo: { is not closed: {' });
    });

    test(`${plugin.name}: no such option`, () => {
        assert.throws(() => plugin({ brackets: true }), { name: 'TypeError', message: 'latex2mathml: there is no option "brackets"' });
    });
}

test('a deep formula', () => {
    const depth = 20_000;
    const [{ children: [math] }] = run(rehypeLatex2mathml, root(element('span', ['math-inline'], text('\\sqrt'.repeat(depth) + ' x'))));
    let node = math;
    for (let i = 0; i <= depth; i++) [node] = node.children;
    assert.deepEqual(node, element('mi', undefined, text('x')));
});
