/* latex2mathml: LaTeX formulas to MathML.
 *
 *     char room[4096];
 *     size_t needed;
 *     switch (latex2mathml_formula("x<y", 3, false, room, sizeof room, &needed)) {
 *     case LATEX2MATHML_DONE:    fwrite(room, 1, needed, stdout); break;            // <math ..>..</math>
 *     case LATEX2MATHML_REFUSED: fprintf(stderr, "%.*s\n", (int)needed, room); break; // the reason
 *     ..
 *     }
 *
 * Input and output are bytes: no text ends in a zero byte, and none needs one. Link with liblatex2mathml.a or with
 * liblatex2mathml.so. Both need the C library and nothing else. */
#ifndef LATEX2MATHML_H
#define LATEX2MATHML_H

#include <stdbool.h>
#include <stddef.h>
#include <stdint.h>

/* The version of the library, as CHANGELOG.md lists it. */
#define LATEX2MATHML_VERSION "0.4.0"

#ifdef __cplusplus
extern "C" {
#endif

/* What a call returns. */
enum latex2mathml_code {
    /* The buffer contains the markup. */
    LATEX2MATHML_DONE = 0,
    /* The text is refused, for example because a brace is not closed. The buffer contains the reason, in English and in UTF-8.
     * It may quote the text, so escape it before you put it into HTML. */
    LATEX2MATHML_REFUSED = 1,
    /* The text is not UTF-8. The buffer contains a sentence that says so. */
    LATEX2MATHML_NOT_UTF8 = 2,
    /* The buffer is too small for the text of one of the others. Nothing was written. `*needed` bytes are enough. */
    LATEX2MATHML_TOO_SMALL = 3,
    /* Memory ran out. Nothing was written, and `*needed` is 0. */
    LATEX2MATHML_OUT_OF_MEMORY = 4,
    /* The definitions of macros are refused. The buffer contains the reason, as for LATEX2MATHML_REFUSED. */
    LATEX2MATHML_DEFINITION_REFUSED = 5,
    /* A flag is set that has no meaning. The buffer contains a sentence that says so. */
    LATEX2MATHML_UNKNOWN_FLAGS = 6
};

/* The flags of latex2mathml_tex. */
enum latex2mathml_flags {
    /* The markup has the text of the formula too: the `math` element holds one `semantics` element, with what is shown and an
     * `annotation` of the encoding `application/x-tex`. Its text is the formula as it was given, and so is the `alttext` of the
     * `math` element. In comments it may hold characters that XML forbids; each of them is replaced by U+FFFD. */
    LATEX2MATHML_ANNOTATION = 1
};

/* The size of a buffer that is large enough for nearly every formula of `latex_len` bytes, so that one call is enough. It is a
 * guess: LATEX2MATHML_TOO_SMALL says whether it was too small. */
#define LATEX2MATHML_ROOM(latex_len) (256 + 64 * (size_t)(latex_len))

/* Converts one formula, without dollar signs around it, to one `math` element: for a block of its own if `block` is true, and
 * otherwise for a line of text.
 *
 * The formula is the `latex_len` bytes at `latex`. The result, which is the markup or the reason why there is none, is in the
 * first `*needed` of the `out_len` bytes at `out`, and the bytes after it are unchanged. `*needed` is the length of the result
 * even if it does not fit.
 *
 * The same formula and `block` have the same result, so they always need the same size: after LATEX2MATHML_TOO_SMALL the
 * same call with `*needed` bytes is not too small. It converts once more, so guess well (LATEX2MATHML_ROOM) if speed
 * matters.
 *
 * This is proved of the function in Rattle, which has slices and references for these pointers and lengths. How the compiler maps
 * the ones to the others is only tested. The caller must ensure these conditions, which nothing checks:
 *   - No pointer is null, not even if its length is 0. Then point at any byte.
 *   - `out` and `needed` overlap neither each other nor `latex`, and nothing else accesses the three during the call.
 *   - No length is larger than PTRDIFF_MAX.
 *   - It is called from no signal handler, and not in the forked child of a process that has threads.
 *   - 128 KiB of the stack are free. That this is enough is tested. A deeply nested formula needs more memory, but no more stack.
 *
 * It keeps nothing between calls and takes no lock, so any number of threads may call at once. The memory that it allocates
 * by malloc and realloc is freed before it returns. */
uint32_t latex2mathml_formula(const char *latex, size_t latex_len, bool block, char *out, size_t out_len, size_t *needed);

/* Converts a document: each formula is replaced by its `math` element, and the prose is kept, except that `\$` becomes
 * `&#x24;`. A formula is between single dollar signs, for a line of text, or between double ones, for a block of its own. A
 * document is refused if its dollar signs do not pair or one of its formulas is refused.
 *
 * Everything else is as with latex2mathml_formula. */
uint32_t latex2mathml_document(const char *document, size_t document_len, char *out, size_t out_len, size_t *needed);

/* Converts one formula in LaTeX as authors write it, without dollar signs around it, to one `math` element. The two calls above
 * read what the Rust crate latex2mathml reads, which is not what TeX reads: to them the 2 of `x_i^2` belongs to the i.
 *
 * The formula is the `tex_len` bytes at `tex`. It may use the usual macros of LaTeX and those of the `definitions_len` bytes at
 * `definitions`, such as `\newcommand{\R}{\mathbb{R}}`. With no bytes there, only the usual ones hold. What a formula defines
 * itself holds to its end.
 *
 * `flags` is 0 or LATEX2MATHML_ANNOTATION. Any other flag is refused with LATEX2MATHML_UNKNOWN_FLAGS. Later versions may give
 * more flags a meaning.
 *
 * `*place` is the byte where what is refused begins: of the formula with LATEX2MATHML_REFUSED, and of the definitions with
 * LATEX2MATHML_DEFINITION_REFUSED. With LATEX2MATHML_TOO_SMALL it is what it will be if the buffer is large enough. Otherwise it
 * is 0. The reason has it too, as in `unknown command \foo at 4`.
 *
 * Where more than one is wrong, the first of these is reported: the flags, definitions that are not UTF-8, a formula that is not
 * UTF-8, the definitions, the formula.
 *
 * Everything else is as with latex2mathml_formula: the same arguments have the same result. `out`, `needed` and
 * `place` overlap neither each other nor one of the texts, which may overlap. */
uint32_t latex2mathml_tex(const char *definitions, size_t definitions_len, const char *tex, size_t tex_len, bool block,
                          uint32_t flags, char *out, size_t out_len, size_t *needed, size_t *place);

#ifdef __cplusplus
}
#endif

#endif
