/* Cases of the library for C, chosen by the words that name them: answers, memory, deep, random, threads, or rules and tex_rules,
 * which read formulas from standard input, one per line. Each case prints a line, 'passed: NAME' or 'FAILED: NAME', and the last
 * line is 'all were judged'. Any other word is refused with the status 2. Compile it with STACK defined as the number of bytes of
 * the stack that are enough for a call. */
#include "c_calls.h"

#include <pthread.h>

enum { LEVELS = 1000000, MANY = 100000, RANDOM_INPUTS = 10000, THREADS = 4, CALLS = 50000 };

/* Answers. */

#define MATH(display, contents) "<math xmlns=\"http://www.w3.org/1998/Math/MathML\" display=\"" display "\">" contents "</math>"
#define LESS "<mi>x</mi><mo>&lt;</mo><mi>y</mi>"
#define FRACTION "<mfrac><mn>1</mn><mn>2</mn></mfrac>"
#define UNFENCED "<mrow style=\"padding: 0 calc(0.12em - 1px)\">"
#define END_UNFENCED "<mo lspace=\"0\" rspace=\"0\"></mo></mrow>"
#define TEX_FRACTION UNFENCED FRACTION END_UNFENCED
#define OPEN_BRACE "The token \"RBrace\" is expected, but the token \"EOF\" is found.\""
#define NO_TEXT "The input is not UTF-8 text."
#define NO_DEFINITIONS "The definitions are not UTF-8 text."
#define FLAGGED "The flags must be 0 or LATEX2MATHML_ANNOTATION."
#define ANNOTATION(tex) "<annotation encoding=\"application/x-tex\">" tex "</annotation>"
#define ANNOTATED(shown, tex) {LATEX2MATHML_DONE, TEXT("<math xmlns=\"http://www.w3.org/1998/Math/MathML\" display=\"inline\" " \
    "alttext=\"" tex "\"><semantics>" shown ANNOTATION(tex) "</semantics></math>"), 0}
#define TEXT(text) text, sizeof text - 1

#define GIVEN(conversion, input) {conversion, TEXT(input), NULL, 0, 0}
#define TEX(conversion, definitions, input) {conversion, TEXT(input), TEXT(definitions), 0}
#define TEX_FLAGGED(flags, definitions, input) {TEX_INLINE, TEXT(input), TEXT(definitions), flags}
#define DONE(display, contents) {LATEX2MATHML_DONE, TEXT(MATH(display, contents)), 0}
#define CODED(code, text) {code, TEXT(text), 0}
#define REFUSED_AT(place, text) {LATEX2MATHML_REFUSED, TEXT(text), place}
#define DEFINITION_AT(place, text) {LATEX2MATHML_DEFINITION_REFUSED, TEXT(text), place}

static const struct {
    const char *name;
    struct given given;
    struct due due;
} known[] = {
    {"a formula in a line", GIVEN(INLINE, "x<y"), DONE("inline", LESS)},
    {"a formula in a block", GIVEN(BLOCK, "x<y"), DONE("block", LESS)},
    {"a formula with bytes behind it", {INLINE, "x<y{", 3, NULL, 0, 0}, DONE("inline", LESS)},
    {"a fraction", GIVEN(INLINE, "\\frac12"), DONE("inline", FRACTION)},
    {"no bytes", GIVEN(INLINE, ""), DONE("inline", "")},
    {"a refused formula", GIVEN(INLINE, "{x"), CODED(LATEX2MATHML_REFUSED, OPEN_BRACE)},
    {"a byte that begins no character", GIVEN(INLINE, "x\xFF"), CODED(LATEX2MATHML_NOT_UTF8, NO_TEXT)},
    {"a character that is cut off", GIVEN(BLOCK, "x\xC3"), CODED(LATEX2MATHML_NOT_UTF8, NO_TEXT)},
    {"half a pair of surrogates", GIVEN(INLINE, "\xED\xA0\x80"), CODED(LATEX2MATHML_NOT_UTF8, NO_TEXT)},
    {"a document", GIVEN(DOCUMENT, "a $x<y$, $$x<y$$"),
     CODED(LATEX2MATHML_DONE, "a " MATH("inline", LESS) ", " MATH("block", LESS))},
    {"a document without a formula", GIVEN(DOCUMENT, "\xC3\xA9 <b>"), CODED(LATEX2MATHML_DONE, "\xC3\xA9 <b>")},
    {"a document with a fraction", GIVEN(DOCUMENT, "$\\frac12$"), DONE("inline", FRACTION)},
    {"an empty document", GIVEN(DOCUMENT, ""), CODED(LATEX2MATHML_DONE, "")},
    {"dollar signs that do not pair", GIVEN(DOCUMENT, "$$$"),
     CODED(LATEX2MATHML_REFUSED, "The number of dollar sings found is invalid.")},
    {"a document with a refused formula", GIVEN(DOCUMENT, "$x$ ${x$"), CODED(LATEX2MATHML_REFUSED, OPEN_BRACE)},
    {"a document that is no text", GIVEN(DOCUMENT, "$x$ \xFF"), CODED(LATEX2MATHML_NOT_UTF8, NO_TEXT)},

    {"TeX in a line", GIVEN(TEX_INLINE, "x_i^2"), DONE("inline", "<msubsup><mi>x</mi><mi>i</mi><mn>2</mn></msubsup>")},
    {"TeX in a block", GIVEN(TEX_BLOCK, "\\frac12"), DONE("block", TEX_FRACTION)},
    {"TeX with bytes behind it", {TEX_INLINE, "x<y{", 3, "\\def\\a{x}{", 9, 0}, DONE("inline", LESS)},
    {"TeX without bytes", GIVEN(TEX_INLINE, ""), DONE("inline", "")},
    {"a macro", TEX(TEX_INLINE, "\\newcommand{\\half}[1]{\\frac{#1}{2}}", "\\half1"), DONE("inline", TEX_FRACTION)},
    {"a macro that a formula defines anew", TEX(TEX_BLOCK, "\\def\\a{x}", "\\def\\a{\\frac12}\\a"), DONE("block", TEX_FRACTION)},
    {"definitions without one", TEX(TEX_INLINE, " % none\n", "x<y"), DONE("inline", LESS)},
    {"a usual macro", GIVEN(TEX_INLINE, "\\LaTeX"), DONE("inline", "<mtext>LaTeX</mtext>")},
    {"an unknown command", GIVEN(TEX_INLINE, "x + \\foo"), REFUSED_AT(4, "unknown command \\foo at 4")},
    {"a place in bytes", GIVEN(TEX_BLOCK, "\xC3\xA9 + \\foo"), REFUSED_AT(5, "unknown command \\foo at 5")},
    {"a refusal at the beginning", GIVEN(TEX_INLINE, "{x"), REFUSED_AT(0, "{ is not closed at 0")},
    {"a refusal within a macro", TEX(TEX_INLINE, "\\def\\a{\\foo}", "x+\\a"), REFUSED_AT(2, "unknown command \\foo at 2")},
    {"a macro without end", TEX(TEX_INLINE, "\\def\\a{\\a}", "x\\a"), REFUSED_AT(1, "too many macros are expanded at 1")},
    {"a zero byte in TeX", GIVEN(TEX_INLINE, "x\0y"), REFUSED_AT(1, "forbidden character U+0000 at 1")},
    {"a refused definition", TEX(TEX_INLINE, "\\def\\a{x} x", "\\a"), DEFINITION_AT(10, "not a definition at 10")},
    {"a definition that is cut off", TEX(TEX_BLOCK, "\\newcommand{\\a", "x"), DEFINITION_AT(11, "{ is not closed at 11")},
    {"a zero byte in definitions", TEX(TEX_INLINE, " \0", "x"), DEFINITION_AT(1, "forbidden character U+0000 at 1")},
    {"a refused definition before a refused formula", TEX(TEX_INLINE, "x", "\\foo"), DEFINITION_AT(0, "not a definition at 0")},
    {"TeX that is no text", GIVEN(TEX_INLINE, "x\xFF"), CODED(LATEX2MATHML_NOT_UTF8, NO_TEXT)},
    {"TeX that is no text, behind a refused definition", TEX(TEX_INLINE, "x", "\xC3"), CODED(LATEX2MATHML_NOT_UTF8, NO_TEXT)},
    {"definitions that are no text", TEX(TEX_BLOCK, "\xFF", "x"), CODED(LATEX2MATHML_NOT_UTF8, NO_DEFINITIONS)},
    {"neither is a text", TEX(TEX_INLINE, "\xC3", "\xFF"), CODED(LATEX2MATHML_NOT_UTF8, NO_DEFINITIONS)},
    {"an annotation", TEX_FLAGGED(LATEX2MATHML_ANNOTATION, "", "x<y"),
     ANNOTATED("<mrow>" LESS "</mrow>", "x&lt;y")},
    {"an annotation beside one element", TEX_FLAGGED(LATEX2MATHML_ANNOTATION, "\\def\\a{x}", "\\a % $\1"),
     ANNOTATED("<mi>x</mi>", "\\a % &#x24;\xEF\xBF\xBD")},
    {"an annotation of no bytes", TEX_FLAGGED(LATEX2MATHML_ANNOTATION, "", ""), ANNOTATED("<mrow></mrow>", "")},
    {"an annotation of a refused formula", TEX_FLAGGED(LATEX2MATHML_ANNOTATION, "", "x + \\foo"),
     REFUSED_AT(4, "unknown command \\foo at 4")},
    {"a flag without a meaning", TEX_FLAGGED(2, "", "x"), CODED(LATEX2MATHML_UNKNOWN_FLAGS, FLAGGED)},
    {"two flags, one of which has none", TEX_FLAGGED(3, "", "x"), CODED(LATEX2MATHML_UNKNOWN_FLAGS, FLAGGED)},
    {"the last flag, before all else", TEX_FLAGGED(0x80000000u, "\xFF", "\xFF"), CODED(LATEX2MATHML_UNKNOWN_FLAGS, FLAGGED)},
};

enum { KNOWN = sizeof known / sizeof *known };

static struct answer known_answer(int i, size_t room) {
    return answer_of(known[i].given, room);
}

static bool is_known(int i, struct answer answer) {
    return is_due(answer, known[i].due);
}

static void answers(void) {
    for (int i = 0; i < KNOWN; i++) {
        size_t needed = known[i].due.needed, place = known[i].due.place;
        judge(is_known(i, known_answer(i, needed + 40)), known[i].name);
        judge(is_known(i, known_answer(i, needed)), known[i].name);
        if (needed > 0) {
            judge(is_too_small(known_answer(i, needed - 1), needed, place), known[i].name);
            judge(is_too_small(known_answer(i, 0), needed, place), known[i].name);
        }
    }
    /* the two texts of a call may be the same bytes */
    static const char both[] = "\\def\\a{x}";
    struct given same = {TEX_INLINE, both, sizeof both - 1, both, sizeof both - 1, 0};
    struct due due = DONE("inline", "");
    judge(is_due(answer_of(same, due.needed), due), "definitions that are the formula too");
}

/* Each request for memory refused in turn, alone and with all later ones. */

/* Whether the call, for each refused request, reports that memory ran out or answers as with ample memory, and keeps no block. */
static bool survives(struct given given, struct due due, bool and_all_behind, long *were_refused) {
    for (long n = 1;; n++) {
        long held = blocks;
        refuse(n, and_all_behind ? 1L << 40 : n);
        struct answer answer = answer_of(given, due.needed);
        bool was_refused = requests >= n;
        refuse(0, -1);
        if (blocks != held || !(is_due(answer, due) || (was_refused && is_out_of_memory(answer)))) {
            printf("wrong: with request %ld refused%s the code is %u, %zu bytes are needed, and %ld blocks are kept\n", n,
                   and_all_behind ? " and all behind it" : "", answer.code, answer.needed, blocks - held);
            return false;
        }
        if (!was_refused)
            return true;
        ++*were_refused;
    }
}

static void judge_with_refusals(struct given given, struct due due, const char *name, long *were_refused) {
    judge(survives(given, due, false, were_refused), name);
    judge(survives(given, due, true, were_refused), name);
}

/* The most bytes that such a call asks for in all: room for a short answer, and for the parts of a short formula and of a macro. */
enum { MOST_ASKED = 5120 };

/* How many bytes such a call asks for if its text needs less room than there is. */
static size_t asked_for(struct given given) {
    refuse(0, -1);
    answer_of(given, MOST_ASKED);
    return bytes_asked;
}

static void memory(void) {
    long were_refused = 0;
    for (int i = 0; i < KNOWN; i++) {
        judge_with_refusals(known[i].given, known[i].due, known[i].name, &were_refused);
        size_t asked = asked_for(known[i].given);
        if (asked > MOST_ASKED)
            printf("wrong: %zu bytes are asked for\n", asked);
        judge(asked <= MOST_ASKED, known[i].name);
    }
    judge(were_refused > 100, "requests were refused");
    /* the room for the answer of a formula is requested at once, and that of a document grows with the answer */
    struct given formula = GIVEN(INLINE, "\\frac12"), document = GIVEN(DOCUMENT, "$\\frac12$");
    judge(asked_for(document) <= asked_for(formula), "a document is converted once");
}

/* Judges each formula of standard input, with each request for memory refused in turn. */
static void judge_rules(enum conversion conversion) {
    static char line[4096], text[SPAN];
    long were_refused = 0;
    while (fgets(line, sizeof line, stdin)) {
        struct given given = {conversion, line, strcspn(line, "\n"), NULL, 0, 0};
        line[given.length] = 0;
        size_t needed = answer_of(given, 0).needed;
        struct answer answer = answer_of(given, needed);
        memcpy(text, answer.room, needed);
        struct due due = {answer.code, text, needed, answer.place};
        judge_with_refusals(given, due, line, &were_refused);
    }
    judge(were_refused > 50, "requests were refused");
}

static void rules(void) {
    judge_rules(INLINE);
}

static void tex_rules(void) {
    judge_rules(TEX_INLINE);
}

/* Deep nesting, on a small stack. */

struct nest {
    const char *name;
    const char *before, *middle, *after;
    uint32_t code;
    const char *printed_before, *printed_middle, *printed_after;
};

static const struct nest nests[] = {
    {"braces", "{", "x", "}", LATEX2MATHML_DONE, "", "<mi>x</mi>", ""},
    {"open braces", "{", "x", "", LATEX2MATHML_REFUSED, NULL, NULL, NULL},
    {"open rows", "{a", "x", "", LATEX2MATHML_REFUSED, NULL, NULL, NULL},
    {"rows", "{a", "x", "}", LATEX2MATHML_DONE, "<mrow><mi>a</mi>", "<mi>x</mi>", "</mrow>"},
    {"scripts", "x^", "x", "", LATEX2MATHML_DONE, "<msup><mi>x</mi>", "<mi>x</mi>", "</msup>"},
    {"roots", "\\sqrt", " x", "", LATEX2MATHML_DONE, "<msqrt>", "<mi>x</mi>", "</msqrt>"},
    {"fractions", "\\frac1{", "x", "}", LATEX2MATHML_DONE, "<mfrac><mn>1</mn>", "<mi>x</mi>", "</mfrac>"},
};

static const struct nest tex_nests[] = {
    {"TeX braces", "{", "x", "}", LATEX2MATHML_DONE, "", "<mi>x</mi>", ""},
    {"open TeX braces", "{", "x", "", LATEX2MATHML_REFUSED, NULL, NULL, NULL},
    {"open TeX rows", "{a", "x", "", LATEX2MATHML_REFUSED, NULL, NULL, NULL},
    {"TeX rows", "{a", "x", "}", LATEX2MATHML_DONE, "<mrow><mi>a</mi>", "<mi>x</mi>", "</mrow>"},
    {"TeX scripts", "x^{", "x", "}", LATEX2MATHML_DONE, "<msup><mi>x</mi>", "<mi>x</mi>", "</msup>"},
    {"TeX roots", "\\sqrt{", "x", "}", LATEX2MATHML_DONE, "<msqrt>", "<mi>x</mi>", "</msqrt>"},
    {"TeX fractions", "\\frac1{", "x", "}", LATEX2MATHML_DONE, UNFENCED "<mfrac><mn>1</mn>", "<mi>x</mi>", "</mfrac>" END_UNFENCED},
    {"TeX words", "\\text{$", "x", "$}", LATEX2MATHML_DONE, "", "<mi>x</mi>", ""},
};

/* The middle between `times` copies of each end, followed by a zero byte. The caller frees it. */
static char *repeat(size_t times, const char *before, const char *middle, const char *after, size_t *length) {
    size_t b = strlen(before), m = strlen(middle), a = strlen(after);
    char *text = malloc(times * (b + a) + m + 1);
    if (!text)
        abort();
    *length = 0;
    for (size_t i = 0; i < times; i++, *length += b)
        memcpy(text + *length, before, b);
    memcpy(text + *length, middle, m);
    *length += m;
    for (size_t i = 0; i < times; i++, *length += a)
        memcpy(text + *length, after, a);
    text[*length] = 0;
    return text;
}

/* The reason why a nested formula is refused. In TeX it names the place of the innermost brace: each `before` begins with one. */
static char *reason_of(const struct nest *nest, bool is_tex, size_t levels, struct due *due) {
    char reason[64] = OPEN_BRACE;
    if (is_tex) {
        due->place = (levels - 1) * strlen(nest->before);
        snprintf(reason, sizeof reason, "{ is not closed at %zu", due->place);
    }
    return repeat(1, "", reason, "", &due->needed);
}

/* What is due for the nested formula. The caller frees its text. */
static struct due due_of(const struct nest *nest, bool is_tex, size_t levels) {
    struct due due = {nest->code, NULL, 0, 0};
    if (nest->code == LATEX2MATHML_DONE) {
        char *contents = repeat(levels, nest->printed_before, nest->printed_middle, nest->printed_after, &due.needed);
        char start[] = MATH("inline", "");
        start[sizeof start - sizeof "</math>"] = 0;
        char *opened = repeat(1, start, contents, "", &due.needed);
        due.text = repeat(1, opened, "", "</math>", &due.needed);
        free(contents);
        free(opened);
    } else {
        due.text = reason_of(nest, is_tex, levels, &due);
    }
    return due;
}

struct deep_case {
    struct given given;
    struct due due;
};

/* Not null if two calls give the answer: one with no room, and one with the room that the first asked for. */
static void *is_answered(void *pointer) {
    static char met;
    const struct deep_case *deep = pointer;
    size_t asked, needed, place, told;
    char *room = malloc(deep->due.needed);
    if (!room)
        abort();
    bool right = call(deep->given, room, 0, &asked, &told) == LATEX2MATHML_TOO_SMALL && asked == deep->due.needed &&
                 told == deep->due.place && call(deep->given, room, asked, &needed, &place) == deep->due.code &&
                 needed == asked && place == told && !memcmp(room, deep->due.text, needed);
    free(room);
    return right ? &met : NULL;
}

static void judge_on_small_stack(struct deep_case deep, const char *name) {
    pthread_attr_t attributes;
    pthread_t thread;
    void *met;
    if (pthread_attr_init(&attributes) || pthread_attr_setstacksize(&attributes, STACK) ||
        pthread_create(&thread, &attributes, is_answered, &deep) || pthread_join(thread, &met))
        abort();
    judge(met != NULL, name);
}

/* Judges the nested formula between two fences, which are dollar signs in a document. */
static void judge_nest(const struct nest *nest, enum conversion conversion, const char *fence, size_t levels, const char *where) {
    struct deep_case deep = {{conversion, NULL, 0, NULL, 0, 0}, due_of(nest, conversion == TEX_INLINE, levels)};
    char name[64], *formula = repeat(levels, nest->before, nest->middle, nest->after, &deep.given.length);
    char *text = repeat(1, fence, formula, fence, &deep.given.length);
    deep.given.input = text;
    snprintf(name, sizeof name, "%s in a %s", nest->name, where);
    judge_on_small_stack(deep, name);
    free(formula);
    free(text);
    free((char *)deep.due.text);
}

static void deep(void) {
    for (size_t i = 0; i < sizeof nests / sizeof *nests; i++) {
        judge_nest(&nests[i], INLINE, "", LEVELS, "formula");
        judge_nest(&nests[i], DOCUMENT, "$", MANY, "document");
    }
    for (size_t i = 0; i < sizeof tex_nests / sizeof *tex_nests; i++)
        judge_nest(&tex_nests[i], TEX_INLINE, "", LEVELS, "formula");
    struct deep_case many = {{DOCUMENT, NULL, 0, NULL, 0, 0}, {LATEX2MATHML_DONE, NULL, 0, 0}};
    char *text = repeat(MANY, "$x$ ", "", "", &many.given.length);
    char *due = repeat(MANY, MATH("inline", "<mi>x</mi>") " ", "", "", &many.due.needed);
    many.given.input = text;
    many.due.text = due;
    judge_on_small_stack(many, "many formulas in a document");
    free(text);
    free(due);
}

/* Random inputs. Each run has the same numbers. */

static uint64_t state = 88172645463325252u;

static uint32_t below(uint32_t count) {
    state ^= state << 13;
    state ^= state >> 7;
    state ^= state << 17;
    return (uint32_t)((state >> 11) % count);
}

static const char *const parts[] = {
    "x", "12.5", "{", "}", "{z}", "^", "_", "'", "\\alpha ", "\\frac", "\\sum", "\\int_", "\\left(", "\\right)",
    "\\begin{matrix}", "\\end{matrix}", "&", "\\\\", "\\", "<", "\"", "&amp;", "$", "$$", " ", "\n", "\xC3\xA9",
    "\xF0\x9D\x94\xB8", "\xFF", "\\mathbb", "\\text{a}", "\\sqrt[3]", "\\operatorname{", "\\big(", "\\overset",
};

static const char *const definitions[] = {"", "", "\\def\\alpha{\\frac12}", "\\newcommand{\\sum}[2]{#2\\alpha #1}", "\\def\\a", "\xFF"};

static size_t random_input(char *text, size_t most) {
    size_t length = 0;
    if (below(4) == 0) {
        for (uint32_t left = below(200); left > 0; left--)
            text[length++] = (char)below(256);
        return length;
    }
    for (uint32_t left = below(40); left > 0; left--) {
        const char *part = parts[below(sizeof parts / sizeof *parts)];
        if ((*part == '\xFF' || *part == '{' || *part == '}') && below(4))
            part = "y";
        if (length + strlen(part) > most)
            break;
        memcpy(text + length, part, strlen(part));
        length += strlen(part);
    }
    return length;
}

static bool may_come(struct given given, uint32_t code) {
    bool is_tex = given.conversion == TEX_INLINE || given.conversion == TEX_BLOCK;
    return code <= LATEX2MATHML_NOT_UTF8 || (is_tex && code == LATEX2MATHML_DEFINITION_REFUSED);
}

/* Whether calls with no room, one byte too few and just enough agree, and write only where they may. */
static bool is_consistent(struct given given, uint32_t *code) {
    size_t needed = answer_of(given, 0).needed;
    struct answer answer = answer_of(given, needed);
    size_t place = answer.place;
    *code = answer.code;
    if (!may_come(given, answer.code) || answer.needed != needed || !is_untouched(answer.room - 64, answer.room))
        return false;
    if (needed > 0 && !(is_too_small(answer_of(given, 0), needed, place) && is_too_small(answer_of(given, needed - 1), needed, place)))
        return false;
    answer = answer_of(given, needed);
    struct due no_text = CODED(LATEX2MATHML_NOT_UTF8, NO_TEXT), no_definitions = CODED(LATEX2MATHML_NOT_UTF8, NO_DEFINITIONS);
    if (answer.code == LATEX2MATHML_NOT_UTF8)
        return is_due(answer, no_text) || is_due(answer, no_definitions);
    if (answer.code == LATEX2MATHML_DONE && given.conversion != DOCUMENT)
        return place == 0 && !memcmp(answer.room, TEXT("<math ")) && !memcmp(room_end() - 7, TEXT("</math>"));
    return place == 0 || place <= (answer.code == LATEX2MATHML_REFUSED ? given.length : given.definitions_length);
}

static void random_inputs(void) {
    long codes[LATEX2MATHML_UNKNOWN_FLAGS] = {0}, wrong = 0, wide[5] = {0}, leaked = blocks;
    for (int i = 0; i < RANDOM_INPUTS; i++) {
        char text[512], before[512];
        size_t length = random_input(text, sizeof text);
        char *copy = malloc(length ? length : 1); /* a block of its own, so that the sanitizer knows where it ends */
        uint32_t code = 0;
        memcpy(copy, text, length);
        memcpy(before, text, length);
        const char *macros = definitions[below(sizeof definitions / sizeof *definitions)];
        struct given given = {(enum conversion)below(5), copy, length, macros, strlen(macros), 0};
        bool right = is_consistent(given, &code) && !memcmp(copy, before, length);
        wide[given.conversion] += !*macros && answer_of(given, 0).needed > LATEX2MATHML_ROOM(length);
        free(copy);
        if (right)
            codes[code]++;
        else if (++wrong < 4)
            printf("wrong: %.*s\n", (int)length, before);
    }
    printf("%ld converted, %ld refused, %ld no text, %ld with a refused definition\n", codes[LATEX2MATHML_DONE],
           codes[LATEX2MATHML_REFUSED], codes[LATEX2MATHML_NOT_UTF8], codes[LATEX2MATHML_DEFINITION_REFUSED]);
    judge(wrong == 0, "random inputs");
    judge(codes[LATEX2MATHML_DONE] > 1000 && codes[LATEX2MATHML_REFUSED] > 1000 && codes[LATEX2MATHML_NOT_UTF8] > 1000 &&
              codes[LATEX2MATHML_DEFINITION_REFUSED] > 100,
          "random inputs of each kind");
    judge(wide[INLINE] == 0 && wide[BLOCK] == 0, "no formula needs more room than the header's guess");
    /* those are tables, whose cells have long attributes */
    judge(wide[TEX_INLINE] + wide[TEX_BLOCK] < RANDOM_INPUTS / 100, "few formulas of LaTeX need more room than that");
    judge(blocks == leaked, "all memory is given back");
}

/* Threads that all call at once. */

static void *is_right_each_time(void *given) {
    static char met;
    (void)given;
    for (int n = 0; n < CALLS; n++)
        if (!is_known(n % KNOWN, known_answer(n % KNOWN, known[n % KNOWN].due.needed)))
            return NULL;
    return &met;
}

static void threads(void) {
    pthread_t all[THREADS];
    for (int i = 0; i < THREADS; i++)
        if (pthread_create(&all[i], NULL, is_right_each_time, NULL))
            abort();
    for (int i = 0; i < THREADS; i++) {
        void *met;
        judge(!pthread_join(all[i], &met) && met, "a thread of four");
    }
}

int main(int count, char **words) {
    static const struct {
        const char *name;
        void (*run)(void);
    } all[] = {{"answers", answers}, {"memory", memory},   {"deep", deep},           {"random", random_inputs},
               {"threads", threads}, {"rules", rules},     {"tex_rules", tex_rules}};
    refuse(0, -1);
    for (int i = 1; i < count; i++) {
        size_t k = 0;
        while (k < sizeof all / sizeof *all && strcmp(words[i], all[k].name))
            k++;
        if (k == sizeof all / sizeof *all) {
            fprintf(stderr, "no cases have the name %s\n", words[i]);
            return 2;
        }
        all[k].run();
    }
    printf("all were judged\n");
    return has_failed;
}
