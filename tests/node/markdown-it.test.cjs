'use strict';
// The plugin for markdown-it.
const assert = require('node:assert/strict');
const { readFileSync } = require('node:fs');
const test = require('node:test');
const markdownIt = require('markdown-it');
const { tex, definitionsOf, formula, document, Refused, ...others } = require('latex2mathml-proved');
const latex2mathml = require('latex2mathml-proved/markdown-it');
const rehypeLatex2mathml = require('latex2mathml-proved/rehype');
const remarkLatex2mathml = require('latex2mathml-proved/remark');
const { answerOf, texAnswerOf, folder } = require('./shared.cjs');

const readme = readFileSync(`${folder}/README.md`, 'utf8');
const WORDS = { i: 'inline', b: 'block' };
const UNKNOWN = '\\foo: unknown command \\foo at 0';
const UNCLOSED = '{ is not closed at 0';

// A page and its warnings.
function rendered(source, options = {}, env = {}) {
    const warnings = [];
    const md = markdownIt({ html: true }).use(latex2mathml, { warn: warning => warnings.push(warning), ...options });
    return [md.render(source, env), warnings];
}

// Tests pages without warnings, in which `<i>x</i>` and `<b>x</b>` represent the markup of x in a line and in a block.
function testPages(pages, options) {
    for (const [source, page] of pages) {
        test(source, () => {
            const wanted = page.replace(/<([ib])>(.*?)<\/\1>/gs, (_, tag, latex) => texAnswerOf(latex, WORDS[tag]));
            assert.deepEqual(rendered(source, options), [wanted, []]);
        });
    }
}

// in lines
testPages([
    ['$x<y$ and $a_b$, *c* $d_e$', '<i>x<y</i> and <i>a_b</i>, <em>c</em> <i>d_e</i>'],
    ['a $$x$$ b', 'a <b>x</b> b'],
    ['$a$$b$', '<i>a</i><i>b</i>'],
    ['$a\nb$', '<i>a\nb</i>'],
    ['$x_i^2$ $\\frac12$', '<i>x_i^2</i> <i>\\frac12</i>'],
    ['$\\$$ $a\\$b$ $\\backslash\\\\ $ $\\,$', '<i>\\$</i> <i>a\\$b</i> $\\backslash\\ $ <i>\\,</i>'],
    ['\\$5, \\$x$ and $6', '$5, $x$ and $6'],
    ['$5 and $6', '$5 and $6'],
    ['$ a$ $b $ $', '$ a$ $b $ $'],
    ['$a$1', '$a$1'],
    ['$$ and $ and $', '$$ and $ and $'],
    ['**$a$** [$b$](u)', '<strong><i>a</i></strong> <a href="u"><i>b</i></a>'],
    ['![a $x$](u)', '<img src="u" alt="a $x$">'],
].map(([source, line]) => [source, `<p>${line}</p>\n`]));

// in blocks
testPages([
    ['$$x$$', '<b>x</b>\n'],
    ['$$\na\n- b\n+ c\n> d\n= e\n$$', '<b>\na\n- b\n+ c\n> d\n= e\n</b>\n'],
    ['   $$ a\n  b $$  \ntext', '<b>a\nb</b>\n<p>text</p>\n'],
    ['text\n$$\na\n$$\ntext', '<p>text</p>\n<b>a</b>\n<p>text</p>\n'],
    ['> $$\n> a\n> $$', '<blockquote>\n<b>a</b>\n</blockquote>\n'],
    ['- $$\n  a\n  $$\n- b', '<ul>\n<li>\n<b>a</b>\n</li>\n<li>b</li>\n</ul>\n'],
    ['- $$\n  a\nb\n$$', '<ul>\n<li><b>\na\nb\n</b></li>\n</ul>\n'],
    ['> a\n    $$\n    b\n    $$', '<blockquote>\n<p>a\n<b>\nb\n</b></p>\n</blockquote>\n'],
    ['$$a$$ and $$b$$', '<p><b>a</b> and <b>b</b></p>\n'],
    ['$$a\\$ b$$', '<b>a\\$ b</b>\n'],
    ['$$\na\n\nb\n$$', '<p>$$\na</p>\n<p>b\n$$</p>\n'],
    ['$$$$', '<p>$$$$</p>\n'],
    ['| a |\n|---|\n| $x$ |', '<table>\n<thead>\n<tr>\n<th>a</th>\n</tr>\n</thead>\n<tbody>\n<tr>\n<td><i>x</i></td>\n'
                               + '</tr>\n</tbody>\n</table>\n'],
]);

// code and HTML
testPages([
    ['`$x$` $x `$` y$', '<p><code>$x$</code> $x <code>$</code> y$</p>\n'],
    ['```\n$x$\n$$\n```', '<pre><code>$x$\n$$\n</code></pre>\n'],
    ['$$\n~~~\n$$\n~~~', '<p>$$</p>\n<pre><code>$$\n</code></pre>\n'],
    ['    $$x$$', '<pre><code>$$x$$</code></pre>\n'],
    ["<div title='$x$'>$x$</div>", "<div title='$x$'>$x$</div>"],
    ["a <b title='$x$'>$y$</b>", "<p>a <b title='$x$'><i>y</i></b></p>\n"],
]);

// brackets, in lines and in blocks
testPages([
    ['\\(x_1\\) \\( *a* \\), \\(a\\\\\\)', '<p><i>x_1</i> <i>*a*</i>, <i>a\\\\</i></p>\n'],
    ['a \\[x\\] b', '<p>a <b>x</b> b</p>\n'],
    ['\\[x\\]', '<b>x</b>\n'],
    ['\\[\na \\\\[2pt]\n- b\n\\]\ntext', '<b>a \\\\[2pt]\n- b</b>\n<p>text</p>\n'],
    ['text\n\\[ a\n+ b \\]', '<p>text</p>\n<b>a\n+ b</b>\n'],
    ['> \\[\n> a\n> \\]', '<blockquote>\n<b>a</b>\n</blockquote>\n'],
    ['\\(\\) \\[ \\] \\(a', '<p>() [ ] (a</p>\n'],
    ['\\\\(a\\\\)', '<p>\\(a\\)</p>\n'],
    ['\\[\na\n\nb\n\\]', '<p>[\na</p>\n<p>b\n]</p>\n'],
    ['`\\(x\\)` \\(a `\\)`', '<p><code>\\(x\\)</code> (a <code>\\)</code></p>\n'],
    ['[a \\( b](u) \\[x', '<p><a href="u">a ( b</a> [x</p>\n'],
    ['![a \\(x\\)](u)', '<p><img src="u" alt="a \\(x\\)"></p>\n'],
]);
testPages([
    ['\\(x\\) \\[x\\] $x$', '<p>(x) [x] <i>x</i></p>\n'],
    ['\\[\nx\n\\]', '<p>[\nx\n]</p>\n'],
], { brackets: false });

// fences
testPages([
    ['```math\nx\n\ny\n```', '<b>x\n\ny</b>\n'],
    ['~~~ math numbered\nx\n~~~', '<b>x</b>\n'],
    ['- ```math\n  x\n  ```', '<ul>\n<li>\n<b>x</b>\n</li>\n</ul>\n'],
    ['```mathematica\nx\n```', '<pre><code class="language-mathematica">x\n</code></pre>\n'],
    ['    ```math\n', '<pre><code>```math\n</code></pre>\n'],
]);

testPages([
    ['$\\R \\le \\dots$', '<p><i>\\mathbb{R} \\le \\dots</i></p>\n'],
    ['$\\half{x}$', '<p><i>\\frac{x}{2}</i></p>\n'],
    ['$$\\def\\a{x} \\a$$', '<b>x</b>\n'],
], { macros: { '\\R': '\\mathbb{R}', half: ['\\frac{#1}{2}', 1] } });
testPages([['$\\R$', '<p><i>\\mathbb{R}</i></p>\n']], { macros: '\\newcommand{\\R}{\\mathbb{R}}' });

for (const [macros, message] of [
    [{ R2: 'x' }, 'latex2mathml: macros: "R2" is not the name of a command: letters, or one other character'],
    [{ '\\R': 1 }, 'latex2mathml: macros: \\R is neither a text nor a list of a text and a number of arguments: 1'],
    [{ '\\R': '{' }, 'macros: \\R: { is not closed: {'],
]) {
    test(message, () => assert.throws(() => markdownIt().use(latex2mathml, { macros }), { message }));
}

for (const name of ['names', 'page', 'Strict']) {
    test(`no option ${name}`, () => {
        assert.throws(() => markdownIt().use(latex2mathml, { [name]: true }), {
            name: 'TypeError', message: `latex2mathml: there is no option "${name}"`,
        });
    });
}

test('no definition of one formula holds in another', () => {
    const [, warnings] = rendered('$\\def\\foo{x}\\foo$ $\\foo$');
    assert.deepEqual(warnings, [`Markdown:1: ${UNKNOWN}`]);
});

test('refused formulas', () => {
    const code = latex => `<code class="latex2mathml-refused" title="${UNCLOSED}">${latex}</code>`;
    const [page, warnings] = rendered('$x$ ${<b title="\\$">\\&$ and\n\n$$\n{y\n+ z\n$$');
    assert.equal(page, `<p>${texAnswerOf('x')} ${code('{&lt;b title=&quot;\\&#x24;&quot;&gt;\\&amp;')} and</p>\n${code('{y\n+ z')}\n`);
    assert.deepEqual(warnings, [`Markdown:1: {<b title="\\$">\\&: ${UNCLOSED}`, `Markdown:3: {y + z: ${UNCLOSED}`]);
});

test('a title is escaped', () => {
    const [page] = rendered('$\\"$');
    assert.equal(page, '<p><code class="latex2mathml-refused" title="unknown command \\&quot; at 0">\\&quot;</code></p>\n');
});

for (const [env, file] of [[{ path: 'a.md' }, 'a.md'], [{ page: { inputPath: './b.md' } }, './b.md'], [{}, 'Markdown']]) {
    test(`lines of ${file}`, () => {
        const source = '# A ${h$\n\ntext `a\nb` ${x$\nmore \\(\\foo\\)\n\n- one\n- two\n  $$\n  {z\n  $$\n\n'
            + '| a |\n|---|\n| ${t$ |\n\n```math\n{f\n```\n';
        const [, warnings] = rendered(source, {}, env);
        assert.deepEqual(warnings, [`${file}:1: {h: ${UNCLOSED}`, `${file}:4: {x: ${UNCLOSED}`, `${file}:5: ${UNKNOWN}`,
                                    `${file}:9: {z: ${UNCLOSED}`, `${file}: {t: ${UNCLOSED}`, `${file}:17: {f: ${UNCLOSED}`]);
    });
}

for (const [source, fault] of [['${x$', `{x: ${UNCLOSED}`], ['$\\foo$', UNKNOWN]]) {
    test(`strict: ${source}`, () => {
        assert.throws(() => rendered(source, { strict: true }, { path: 'a.md' }), { name: 'Error', message: `a.md:1: ${fault}` });
    });
}

test('an annotation', () => {
    const [page] = rendered('$x<y$\n\n$$\nx<y\n$$', { annotation: true });
    assert.equal(page, `<p>${texAnswerOf('x<y', 'inline', '--annotation')}</p>\n${texAnswerOf('x<y', 'block', '--annotation')}\n`);
});

test('a page needs no script and no style sheet', () => {
    assert.doesNotMatch(rendered('$x$\n\n$$y$$')[0], /<(script|link|style)/);
});

test('a line alone', () => {
    assert.equal(markdownIt().use(latex2mathml).renderInline('a $x<y$'), `a ${texAnswerOf('x<y')}`);
});

test('the README', () => {
    const [calls, plugin] = Array.from(readme.matchAll(/^```js\n(.*?)^```$/gms), ([, script]) => eval(script));
    assert.ok(calls.endsWith(`Let ${answerOf('x<y')} be.`), calls);
    assert.ok(plugin.endsWith(`<p>Let ${texAnswerOf('x_i^2 \\in \\mathbb{R}')} be.</p>\n`), plugin);
});

test('what calls.ts says that the package exports', () => assert.deepEqual(others, {}));

test('what calls.ts says that the options are', () => {
    const names = Array.from(readme.matchAll(/^\| `(\w+)` \|/gm), ([, name]) => name);
    assert.deepEqual(names, ['macros', 'annotation', 'strict', 'brackets', 'warn']);
});

// The calls of calls.ts use these.
const md = markdownIt();
const render = options => rendered('$\\R$ $\\foo$', { warn: () => {}, ...options });
const file = { message() {}, fail() {} };

const [, calls] = readFileSync(`${__dirname}/calls.ts`, 'utf8').split('\n\n');
for (const [, call, comment] of calls.matchAll(/^(.*;)(?: \/\/ (.*))?$/gm)) {
    if (comment === 'TypeError') test(call, () => assert.throws(() => eval(call), { constructor: TypeError }));
    else test(call, () => eval(call));
}
