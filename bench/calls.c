/* How many formulas per processor second are converted by calls from C: in one call each, into a buffer that is large
 * enough, and in two, the first without a buffer. One line per argument: its bytes and both numbers.
 * With `repeat`, a number and a formula, it converts the formula so often, and prints nothing. */
#include "latex2mathml.h"

#include <stdio.h>
#include <stdlib.h>
#include <string.h>
#include <time.h>

static char room[1 << 20];

static void convert(const char *latex, size_t length, bool ask_first) {
    size_t needed = sizeof room;
    if (ask_first && latex2mathml_formula(latex, length, false, room, 0, &needed) != LATEX2MATHML_TOO_SMALL)
        abort();
    if (latex2mathml_formula(latex, length, false, room, needed, &needed) != LATEX2MATHML_DONE)
        abort();
}

static double a_second(const char *latex, bool ask_first) {
    size_t length = strlen(latex);
    clock_t start = clock(), taken;
    long calls = 0;
    do {
        for (int i = 0; i < 1000; i++)
            convert(latex, length, ask_first);
        calls += 1000;
        taken = clock() - start;
    } while (taken < 2 * CLOCKS_PER_SEC);
    return (double)calls * CLOCKS_PER_SEC / (double)taken;
}

int main(int count, char **words) {
    if (count == 4 && strcmp(words[1], "repeat") == 0) {
        for (long left = atol(words[2]); left > 0; left--)
            convert(words[3], strlen(words[3]), false);
        return 0;
    }
    for (int i = 1; i < count; i++)
        printf("%zu %.0f %.0f\n", strlen(words[i]), a_second(words[i], false), a_second(words[i], true));
    return 0;
}
