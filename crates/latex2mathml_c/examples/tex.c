/* Prints the markup of formulas in LaTeX as authors write it. The first word defines macros, and each other one is a formula.
 *     cc -I .. tex.c ../liblatex2mathml.a -o tex && ./tex '\newcommand{\R}{\mathbb{R}}' 'x_i^2 \in \R' */
#include "latex2mathml.h"

#include <stdio.h>
#include <stdlib.h>
#include <string.h>

/* The result of a call. The caller frees the text, which is null if memory runs out. */
struct answer {
    uint32_t code;
    char *text;
    size_t length, place;
};

static struct answer convert(const char *definitions, const char *tex) {
    size_t length = strlen(tex), room;
    struct answer answer = {LATEX2MATHML_TOO_SMALL, NULL, LATEX2MATHML_ROOM(length), 0};
    while (answer.code == LATEX2MATHML_TOO_SMALL) { /* twice at most */
        room = answer.length;
        free(answer.text);
        answer.text = malloc(room);
        if (!answer.text)
            return answer;
        answer.code = latex2mathml_tex(definitions, strlen(definitions), tex, length, false, 0, answer.text, room, &answer.length,
                                       &answer.place);
    }
    if (answer.code == LATEX2MATHML_OUT_OF_MEMORY) {
        free(answer.text);
        answer.text = NULL;
    }
    return answer;
}

/* Shows the text with a mark before the place where what is refused begins. */
static void point(const char *text, size_t place) {
    fprintf(stderr, "%.*s >>> %s\n", (int)place, text, text + place);
}

/* Returns whether the formula has markup, which is printed. Otherwise the reason goes to standard error. */
static bool show(const char *definitions, const char *tex) {
    struct answer answer = convert(definitions, tex);
    bool done = answer.text && answer.code == LATEX2MATHML_DONE;
    if (!answer.text)
        fputs("Memory could not be found.\n", stderr);
    else
        fprintf(done ? stdout : stderr, "%.*s\n", (int)answer.length, answer.text);
    if (answer.text && answer.code == LATEX2MATHML_REFUSED)
        point(tex, answer.place);
    if (answer.text && answer.code == LATEX2MATHML_DEFINITION_REFUSED)
        point(definitions, answer.place);
    free(answer.text);
    return done;
}

int main(int count, char **words) {
    bool all = true;
    for (int i = 2; i < count; i++)
        all &= show(words[1], words[i]);
    return !all;
}
