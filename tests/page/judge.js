// What the pages of cases share: each page records what it found, and sends it to the test that opened it.
'use strict';
const judgements = [];
function is(name, found, due) {
    judgements.push({name, found: String(found), due: String(due), passed: found === due});
}
const near = (one, other) => Math.abs(one - other) < 0.5;
const at = id => document.getElementById(id);
const all = (id, selector) => [...at(id).querySelectorAll(selector)];
const one = (id, selector) => at(id).querySelector(selector);
const box = element => element.getBoundingClientRect();
const style = element => getComputedStyle(element);
const values = (id, selector, name) => all(id, selector).map(element => element.getAttribute(name)).join(' ');

// The box of what is drawn of a token, without the token's own spaces.
function glyphs(token) {
    const range = document.createRange();
    range.selectNodeContents(token);
    return range.getBoundingClientRect();
}

const isFirefox = CSS.supports('-moz-appearance', 'none');

// Judges the page, and sends what was found. If a function throws an error, that is a judgement that failed.
function judgeNow(...judges) {
    for (const each of judges) {
        try { each(); } catch (fault) { is(each.name + ' goes to its end', fault, 'no fault'); }
    }
    fetch(location.pathname, {method: 'POST', body: JSON.stringify(judgements)});
}

// Does the same once all of the page is there.
function judge(...judges) {
    addEventListener('load', () => judgeNow(...judges));
}

// Judges that the script has run, with one formula for each of the things that it mends.
function judgeMended() {
    is('a letter is mended', one('letter', 'math').textContent, 'ℝ');
    is('a sign is mended', one('sign', 'mo').textContent, '\u2212');
    is('a bracket is mended', values('bracket', 'mo', 'stretchy'), 'false false');
    is('an accent is mended', values('accent', 'mover', 'accent'), 'true');
    is('a space is mended', values('prefix', 'mo', 'rspace'), '0');
    is('a function is mended', all('function', 'mspace').length, 2);
    is('a negative space is mended', one('negative', 'mspace').style.marginInlineStart, '-0.167em');
    is('an error is mended', one('error', 'mtext').className, 'latex2mathml-error');
}
