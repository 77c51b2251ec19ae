// Renders the Markdown on standard input, without warnings.
const md = require('markdown-it')({ html: true }).use(require('latex2mathml-proved/markdown-it'), { warn() {} });
md.render(require('node:fs').readFileSync(0, 'utf8'));
