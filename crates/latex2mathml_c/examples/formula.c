/* Prints the markup of each word, or of x<y where there is none.
 *     cc -I .. formula.c ../liblatex2mathml.a -o formula && ./formula '\frac{1}{2}' */
#include "latex2mathml.h"

#include <stdio.h>
#include <stdlib.h>
#include <string.h>

/* Returns the result for the formula, followed by a zero byte, in memory that the caller frees; null if memory runs out. */
static char *convert(const char *latex, bool block, enum latex2mathml_code *code) {
    size_t length = strlen(latex), room = LATEX2MATHML_ROOM(length), needed;
    char *text = malloc(room + 1);
    if (!text)
        return NULL;
    *code = latex2mathml_formula(latex, length, block, text, room, &needed);
    if (*code == LATEX2MATHML_TOO_SMALL) {
        free(text);
        room = needed;
        text = malloc(room + 1);
        if (!text)
            return NULL;
        *code = latex2mathml_formula(latex, length, block, text, room, &needed);
    }
    if (*code == LATEX2MATHML_OUT_OF_MEMORY) {
        free(text);
        return NULL;
    }
    text[needed] = 0;
    return text;
}

/* Returns whether the formula has markup, which is printed. Otherwise the reason goes to standard error. */
static bool show(const char *latex) {
    enum latex2mathml_code code;
    char *text = convert(latex, false, &code);
    bool done = text && code == LATEX2MATHML_DONE;
    fprintf(done ? stdout : stderr, "%s\n", text ? text : "Memory could not be found.");
    free(text);
    return done;
}

int main(int count, char **words) {
    bool all = true;
    if (count < 2)
        return !show("x<y");
    for (int i = 1; i < count; i++)
        all &= show(words[i]);
    return !all;
}
