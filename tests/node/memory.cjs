'use strict';
// Prints by how many bytes the process grows between a few calls and many, for each kind of call. Fewer than MOST bytes are
// few enough.
const { tex, formula, document } = require('latex2mathml-proved');
const MOST = Number(process.argv[2]);
const call = (convert, text) => { try { convert(text); } catch { } };
const long = 'x'.repeat(300_000);
const texts = [[formula, long], [formula, '{' + long], [document, long], [document, '$' + long], [tex, long], [tex, '{' + long]];
// The engine gives memory back in threads of its own, which a busy machine delays, so the lowest of several readings counts.
const clock = new Int32Array(new SharedArrayBuffer(4));

function resident(convert, text, count, readings, enough) {
    for (let i = 0; i < count; i++) call(convert, text);
    let least = Infinity;
    for (let i = 0; i < readings && least >= enough; i++) {
        Atomics.wait(clock, 0, 0, 20);
        global.gc();
        least = Math.min(least, process.memoryUsage().rss);
    }
    return least;
}

console.log(JSON.stringify(texts.map(([convert, text]) => {
    const few = resident(convert, text, 20, 5, 0);
    return resident(convert, text, 200, 500, few + MOST) - few;
})));
