// Prints a page made from example.md.
const { readFileSync } = require('node:fs');
const markdownIt = require('markdown-it');
const latex2mathml = require('./markdown-it.js');

const md = markdownIt().use(latex2mathml, { macros: { '\\R': '\\mathbb{R}', '\\norm': '\\lVert #1 \\rVert' } });
const content = md.render(readFileSync(`${__dirname}/example.md`, 'utf8'), { path: 'example.md' });

console.log(`<!DOCTYPE html>
<html lang="en">
<head>
<meta charset="utf-8">
<title>An example</title>
</head>
<body>
${content}</body>
</html>`);
