// For each line of JSON, a list of [formula, whether it is a block], writes what KaTeX makes of each: its markup, or null.
const readline = require('node:readline');

const katex = require(process.argv[2]);

const markupOf = ([formula, displayMode]) => {
  try {
    const markup = katex.renderToString(formula, { displayMode, output: 'mathml', strict: 'ignore' });
    return markup.slice(markup.indexOf('<math'), markup.lastIndexOf('</math>') + '</math>'.length);
  } catch {
    // a refusal, or a mistake of KaTeX's own: at the end of a definition it looks for a token that is not there
    return null;
  }
};

readline.createInterface({ input: process.stdin }).on('line', (line) => {
  process.stdout.write(`${JSON.stringify(JSON.parse(line).map(markupOf))}\n`);
});
