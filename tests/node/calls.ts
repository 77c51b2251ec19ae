// TypeScript refuses the calls that have a comment. JavaScript throws a TypeError, too, or takes the call: it ignores an extra
// argument, and takes any value for a condition.
import * as declared from 'latex2mathml-proved';
import latex2mathml = require('latex2mathml-proved/markdown-it');
import rehypeLatex2mathml = require('latex2mathml-proved/rehype');
import remarkLatex2mathml = require('latex2mathml-proved/remark');
const { tex, definitionsOf, formula, document, Refused } = declared;
declare const md: object;
declare const file: object;
declare function render(options?: Parameters<typeof latex2mathml>[1]): string;
const names: Record<keyof typeof declared, 0> = { tex: 0, definitionsOf: 0, formula: 0, document: 0, Refused: 0 };
const options: Record<keyof NonNullable<Parameters<typeof latex2mathml>[1]>, 0> = { macros: 0, annotation: 0, strict: 0, brackets: 0, warn: 0 };

tex('x').charAt(0);
tex('x', true).charAt(0);
tex('\\R', false, '\\def\\R{x}').charAt(0);
tex('x', false, '', { annotation: true }).charAt(0);
definitionsOf({ '\\R': '\\mathbb{R}', norm: ['\\lVert #1 \\rVert', 1], x: ['y'] }).charAt(0);
definitionsOf('').charAt(0);
formula('x').charAt(0);
formula('x', true, true).charAt(0);
document('$x$', true).charAt(0);
formula('x', true).charAt(0);
document('$x$').charAt(0);
new Refused('a reason').message.charAt(0);
new Refused('a reason').stack;
new Refused('a reason').place;
new Refused('a reason').line;
new Refused('a reason').column;
latex2mathml(md);
latex2mathml(md, {});
render();
render({ macros: {}, annotation: true, strict: false, brackets: true, warn: message => message.charAt(0) });
render({ macros: { '\\R': '\\mathbb{R}', '\\foo': ['x', 0] }, strict: true, brackets: false });
render({ macros: '\\def\\foo{x}' });
remarkLatex2mathml()({ type: 'root' }, file);
remarkLatex2mathml({ macros: { R: 'x' }, annotation: true, strict: true });
rehypeLatex2mathml()({ type: 'root' }, file);
rehypeLatex2mathml({ macros: '', strict: false });
tex(); // TypeError
tex(3); // TypeError
tex('x', 'block'); // TypeError
tex('x', true, {}); // TypeError
tex('x').toFixed(); // TypeError
definitionsOf(); // TypeError
definitionsOf(3); // TypeError
definitionsOf({ R: 1 }); // TypeError
definitionsOf({ R: ['x', 'y'] }); // TypeError
definitionsOf({ R: [] }); // TypeError
definitionsOf('').toFixed(); // TypeError
formula(); // TypeError
formula(3); // TypeError
formula(null); // TypeError
formula(['x']); // TypeError
formula('x', 1); // TypeError
formula('x', 'block'); // TypeError
formula('x').toFixed(); // TypeError
document(); // TypeError
document({}); // TypeError
document('x').toFixed(); // TypeError
new Refused('a reason').message.toFixed(); // TypeError
latex2mathml(); // TypeError
latex2mathml(3); // TypeError
latex2mathml(md).toString(); // TypeError
render({ names: true }); // TypeError
render({ page: 'page' }); // TypeError
render({ macros: null }); // TypeError
render({ macros: { '\\R': 1 } }); // TypeError
render({ macros: false }); // TypeError
remarkLatex2mathml({ brackets: true }); // TypeError
remarkLatex2mathml({ macros: 3 }); // TypeError
rehypeLatex2mathml({ warn: () => {} }); // TypeError
rehypeLatex2mathml({ macros: null }); // TypeError
render({ warn: null }); // TypeError
render({ warn: 'a warning' }); // TypeError
render({ warn: message => message.toFixed() }); // TypeError
render({ warn: (message, line) => line.toFixed() }); // TypeError
render({ macros: { '\\R': ['x', 10] } }).toFixed(); // TypeError
formula('x', true, 1); // taken by JavaScript
formula('x', true, true, 1); // taken by JavaScript
document('$x$', 1); // taken by JavaScript
tex('x', true, '', 1); // taken by JavaScript
latex2mathml(md, {}, 1); // taken by JavaScript
render({ macros: { '\\R': 'x', '\\foo': 'x' }, strict: 'yes' }); // taken by JavaScript
