// For pages with the markup of latex_to_mathml: that of tex_to_mathml needs no script. Once the page is read, it corrects what
// browsers that draw MathML Core leave undone. For formulas that are added later, call latex2mathml.mend(element).
// A page may load it several times, as when each of its parts links it.
var latex2mathml = latex2mathml ?? (() => {
    'use strict';
    const LATIN = 'ABCDEFGHIJKLMNOPQRSTUVWXYZabcdefghijklmnopqrstuvwxyz';
    const GREEK = 'ΑΒΓΔΕΖΗΘΙΚΛΜΝΞΟΠΡϴΣΤΥΦΧΨΩ∇αβγδεζηθικλμνξοπρςστυφχψω∂ϵϑϰϕϱϖ';
    const DIGITS = '0123456789';
    // Where Unicode has the alphabets of each variant, in order.
    const STARTS = {
        'bold': [[LATIN, 0x1D400], [GREEK, 0x1D6A8], [DIGITS, 0x1D7CE], ['Ϝϝ', 0x1D7CA]],
        'italic': [[LATIN, 0x1D434], [GREEK, 0x1D6E2], ['ıȷ', 0x1D6A4]],
        'bold-italic': [[LATIN, 0x1D468], [GREEK, 0x1D71C]],
        'script': [[LATIN, 0x1D49C]],
        'bold-script': [[LATIN, 0x1D4D0]],
        'fraktur': [[LATIN, 0x1D504]],
        'double-struck': [[LATIN, 0x1D538], [DIGITS, 0x1D7D8]],
        'bold-fraktur': [[LATIN, 0x1D56C]],
        'sans-serif': [[LATIN, 0x1D5A0], [DIGITS, 0x1D7E2]],
        'bold-sans-serif': [[LATIN, 0x1D5D4], [GREEK, 0x1D756], [DIGITS, 0x1D7EC]],
        'sans-serif-italic': [[LATIN, 0x1D608]],
        'sans-serif-bold-italic': [[LATIN, 0x1D63C], [GREEK, 0x1D790]],
        'monospace': [[LATIN, 0x1D670], [DIGITS, 0x1D7F6]],
    };
    // Letters whose places there are empty, since Unicode already had them.
    const ELSEWHERE = {
        'italic': {h: 'ℎ'},
        'script': {B: 'ℬ', E: 'ℰ', F: 'ℱ', H: 'ℋ', I: 'ℐ', L: 'ℒ', M: 'ℳ', R: 'ℛ', e: 'ℯ', g: 'ℊ', o: 'ℴ'},
        'fraktur': {C: 'ℭ', H: 'ℌ', I: 'ℑ', R: 'ℜ', Z: 'ℨ'},
        'double-struck': {C: 'ℂ', H: 'ℍ', N: 'ℕ', P: 'ℙ', Q: 'ℚ', R: 'ℝ', Z: 'ℤ'},
    };
    // Browsers stretch these to the tallest thing next to them unless the markup says otherwise.
    const UPRIGHT = [...'()[]{}|‖∣∥⟨⟩⌈⌉⌊⌋⦗⦘⟦⟧↑↓↕⇑⇓⇕↿↾⇃⇂⇈⇊↰↱'];
    // Signs as TeX draws them, and accents over one letter, which browsers draw as wide as several.
    const DRAWN = {'-': '−', '*': '∗', "'": '′'};
    const NARROW = {'^': 'ˆ', '~': '˜'};

    // TeX's classes of the members of a row. A MARK is a relation between two operands, and ordinary elsewhere.
    const [ORDINARY, OPERATOR, BINARY, RELATION, OPENING, CLOSING, PUNCTUATION, INNER, MIDDLE, MARK] = Array(10).keys();
    const SIGNS = [
        [ORDINARY, /^[./|'′‖¬∀∃∄∂𝜕∇⊤▽⋮]/u],
        [OPERATOR, /^[∏-∑∫-∳⋀-⋃⨀-⨉]/u],
        [BINARY, /^[-+*±×÷·−∓∔∖-∙∧-∪≀⊌-⊎⊓-⊡⊲-⊵⊺-⊽⋄-⋇⋉-⋌⋎⋏⋒⋓⋖⋗◁▷◯⤙⤚⧄⧅⧈⨿﹨]/u],
        [RELATION, /^[:<=>←-⇿∈-∍∝∣∤∼≁-⊋⊏-⊒⊢⊣⊦-⊱⊸⋈⋍⋐⋑⋔-⋭⌢⌣△⟵-⟿⤀-⥿⩦-⫠]/u],
        [OPENING, /^[([{⟨⌈⌊⦗⟦]/u],
        [CLOSING, /^[)\]}⟩⌉⌋⦘⟧!]/u],
        [PUNCTUATION, /^[,;]/u],
        [INNER, /^[…⋯⋱]/u],
        [MARK, /^[∥⊥]/u],
    ];
    const NAMES = [[OPERATOR, /^\p{L}{2}/u], [BINARY, /^[†‡]/u], [RELATION, /^[∴∵]/u], [PUNCTUATION, /^:/u]];
    const INVISIBLE = /^[\u2061-\u2064]/u;
    const ENDS = [ORDINARY, CLOSING, INNER];
    const BEGINS = [ORDINARY, OPERATOR, BINARY, OPENING, INNER, MARK];
    // TeX's spaces between two neighbours, a row for each class of the left one: none, thin, thin, medium and thick.
    // In scripts only the second of the thin ones is left. A hyphen is where no binary sign can be, since it lacks an operand.
    const SPACES = ['02340001', '22-40001', '33--3--3', '44-04004', '00-00000', '02340001', '11-11111', '12341011'];
    const WIDTHS = ['0', '0.167em', '0.167em', '0.222em', '0.278em'];

    const ROWS = ':is(math, mrow, mstyle, msqrt, mtd)';
    const BASED = ':is(msub, msup, msubsup, munder, mover, munderover):not(:has(> mo[accent])), mrow:has(> mo:only-child)';
    // Firefox sets the depth of a limit only when it lays the formula out, so its place counts too.
    const SCRIPT = ':is(msub, msup, msubsup, munder, mover, munderover, mroot) > :not(:first-child)';
    // The second kind of fence is that of KaTeX, which gives no form.
    const FENCE = ':is(mo[form][stretchy="true"], mo[fence="true"])';
    const FENCED = `mrow:has(> ${FENCE}:first-child):not(:has(> mfrac[linethickness="0"]))`;
    // The markup of align. TeX inserts an empty group before what follows its &.
    const ALIGN = 'mtable[columnalign$="left"]:not([frame], [columnspacing])';
    const BEHIND = ALIGN + ' > mtr > mtd:nth-child(even)';

    // Returns the mathematical character of a letter, or the letter itself if Unicode has none.
    function character(letter, variant) {
        const [letters, start] = (STARTS[variant] ?? []).find(([letters]) => letters.includes(letter)) ?? [];
        if (!letters) return letter;
        return ELSEWHERE[variant]?.[letter] ?? String.fromCodePoint(start + letters.indexOf(letter));
    }

    function mendLetters(token) {
        const variant = token.getAttribute('mathvariant');
        const text = [...token.textContent].map(letter => character(letter, variant)).join('');
        if (text === token.textContent) return;
        token.textContent = text;
        token.removeAttribute('mathvariant');
    }

    // If a bracket has attributes, its program said how it is drawn.
    function mendSign(sign) {
        if (UPRIGHT.includes(sign.textContent) && !sign.hasAttributes()) sign.setAttribute('stretchy', 'false');
        if (sign.textContent in DRAWN) sign.textContent = DRAWN[sign.textContent];
    }

    // The sign is marked as an accent; browsers look at the element around it. A line is drawn as long as what it covers.
    function mendAccent(sign) {
        const around = sign.parentElement;
        around.setAttribute(around.localName === 'mover' ? 'accent' : 'accentunder', 'true');
        if (sign.textContent === '_') around.classList.add('latex2mathml-line');
        if (sign.textContent in NARROW && [...around.firstElementChild.textContent].length === 1) {
            sign.textContent = NARROW[sign.textContent];
            sign.setAttribute('stretchy', 'false');
        }
    }

    // Returns what gives an element its class: its base if it has scripts or limits, and the sign in it if it has a size.
    function baseOf(element) {
        while (element.matches(BASED) && element.firstElementChild) element = element.firstElementChild;
        return element;
    }

    const textOf = base => base.matches('mi, mo') ? base.textContent.trim() : '';

    function classOfFence(fence) {
        if (fence.matches('[form="prefix"], :first-child:not([form])')) return OPENING;
        return fence.matches('[form="postfix"], :last-child') ? CLOSING : MIDDLE;
    }

    // Returns the class of a base wherever it is, or none if this script does not know it.
    function classOf(base) {
        const text = textOf(base);
        if (base.matches(FENCE)) return classOfFence(base);
        if (base.matches('mo[stretchy="true"]') && UPRIGHT.includes(text)) return MIDDLE;
        if (base.matches(FENCED)) return INNER;
        const classes = {mi: NAMES, mo: SIGNS}[base.localName] ?? [];
        return classes.find(([, signs]) => signs.test(text))?.[0];
    }

    // Returns the classes of a row's members where they are: a binary sign that is not between two operands is ordinary, and
    // so is a sign that may be a relation; bars that come in pairs are those of norms.
    function classesOf(bases, before) {
        const hasNorms = bases.filter(base => textOf(base) === '∥').length % 2 === 0;
        const classes = bases.map(base => (hasNorms && textOf(base) === '∥' ? ORDINARY : classOf(base) ?? ORDINARY));
        for (const [i, own] of classes.entries()) {
            if (own !== BINARY && own !== MARK) continue;
            const isBetween = ENDS.includes(i ? classes[i - 1] : before) && BEGINS.includes(classes[i + 1]);
            if (!isBetween) classes[i] = ORDINARY;
            else if (own === MARK) classes[i] = RELATION;
        }
        return classes;
    }

    function spaceBetween(left, right, isScript) {
        const space = SPACES[left === MIDDLE ? OPENING : left]?.[right === MIDDLE ? CLOSING : right] ?? 0;
        return isScript && space !== '2' ? WIDTHS[0] : WIDTHS[space];
    }

    function setSpaces(sign, before, behind) {
        if (!sign.hasAttribute('lspace')) sign.setAttribute('lspace', before);
        if (!sign.hasAttribute('rspace')) sign.setAttribute('rspace', behind);
    }

    function addSpace(behind, width) {
        if (behind.matches('.latex2mathml-space')) return;
        const space = document.createElementNS(behind.namespaceURI, 'mspace');
        space.setAttribute('class', 'latex2mathml-space');
        space.setAttribute('width', width);
        behind.before(space);
    }

    // Firefox sets a thin space between an upright and a slanted letter next to each other.
    function isSetApart(left, right) {
        const isUpright = letter => letter.matches('[mathvariant="normal"]') || [...letter.textContent].length > 1;
        return left?.localName === 'mi' && right.localName === 'mi' && isUpright(left) !== isUpright(right);
    }

    // A sign has the spaces between it and its neighbours; where neither neighbour is a sign, an element has the space.
    function mendRow(row, isScript) {
        const members = [...row.children].filter(child => !child.matches('mspace') && !INVISIBLE.test(textOf(child)));
        const bases = members.map(baseOf);
        const isSign = base => base?.localName === 'mo' && classOf(base) !== undefined;
        const before = row.matches(BEHIND) ? ORDINARY : undefined;
        const classes = classesOf(bases, before);
        for (const [i, base] of bases.entries()) {
            const space = spaceBetween(i ? classes[i - 1] : before, classes[i], isScript);
            const isSpaced = isSign(bases[i - 1]);
            if (isSign(base)) setSpaces(base, isSpaced ? WIDTHS[0] : space, spaceBetween(classes[i], classes[i + 1], isScript));
            else if (!isSpaced && (space !== WIDTHS[0] || isSetApart(bases[i - 1], base))) {
                addSpace(i ? members[i - 1].nextElementSibling : row.firstElementChild, space);
            }
        }
    }

    // Returns those of the elements that are a script or in one. An element comes before what it contains.
    function scriptsAmong(elements) {
        const scripts = new Set();
        for (const element of elements) {
            if (scripts.has(element.parentElement) || element.matches(SCRIPT)) scripts.add(element);
        }
        return scripts;
    }

    function mendRows(rows, scripts) {
        // All styles are read before anything is changed, so that they are computed only once.
        const isScript = rows.map(row => getComputedStyle(row).mathDepth > 0 || scripts.has(row));
        rows.forEach((row, i) => mendRow(row, isScript[i]));
    }

    // Corrects what is in an element, or the whole page if none is given.
    function mend(root = document) {
        const all = selector => [...root.querySelectorAll(selector)];
        all(':is(mi, mn, mo)[mathvariant]').forEach(mendLetters);
        all('mo:not([stretchy], [minsize])').forEach(mendSign);
        all(':is(mover, munder) > mo[accent="true"]:last-child').forEach(mendAccent);
        mendRows([...new Set(all(ROWS + ' > *').map(member => member.parentElement))], scriptsAmong(all('math *')));
        all('mo').filter(sign => classOf(sign) !== undefined).forEach(sign => setSpaces(sign, WIDTHS[0], WIDTHS[0]));
        // The style sheet aligns these too; Firefox obeys the markup, and looks at it again when that of the table changes.
        all(ALIGN + ' > mtr > mtd:nth-child(odd)').forEach(cell => cell.setAttribute('columnalign', 'right'));
        all(ALIGN).forEach(table => table.setAttribute('columnalign', 'right left'));
        all('mspace[width^="-"]').forEach(space => { space.style.marginInlineStart = space.getAttribute('width'); });
        all('mtext').filter(text => text.textContent.startsWith('[PARSE ERROR: '))
            .forEach(text => text.classList.add('latex2mathml-error'));
    }

    if (document.readyState === 'loading') document.addEventListener('DOMContentLoaded', () => mend());
    else mend();
    return {mend};
})();
