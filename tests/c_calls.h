/* What the cases of the library for C share: judging, requests for memory that are refused, and calls whose room ends at a page
 * that may not be touched. Link it with --wrap for malloc, realloc and free. */
#ifndef C_CALLS_H
#define C_CALLS_H

#include "latex2mathml.h"

#include <stdio.h>
#include <stdlib.h>
#include <string.h>
#include <sys/mman.h>

static bool has_failed;

static void judge(bool met, const char *name) {
    has_failed |= !met;
    printf("%s: %s\n", met ? "passed" : "FAILED", name);
}

/* Requests for memory: how many this thread has made, for how many bytes in all, and the first and the last that is refused. */

void *__real_malloc(size_t size);
void *__real_realloc(void *block, size_t size);
void __real_free(void *block);

static _Thread_local long requests, first_refused, last_refused, blocks;
static _Thread_local size_t bytes_asked;

static bool is_refused(size_t size) {
    requests++;
    bytes_asked += size;
    return first_refused <= requests && requests <= last_refused;
}

void *__wrap_malloc(size_t size) {
    void *block = is_refused(size) ? NULL : __real_malloc(size);
    blocks += block != NULL;
    return block;
}

void *__wrap_realloc(void *block, size_t size) {
    void *moved = is_refused(size) ? NULL : __real_realloc(block, size);
    blocks += !block && moved;
    return moved;
}

void __wrap_free(void *block) {
    blocks -= block != NULL;
    __real_free(block);
}

static void refuse(long first, long last) {
    requests = 0;
    bytes_asked = 0;
    first_refused = first;
    last_refused = last;
}

/* Calls whose room ends at a page that may not be touched. */

enum { SPAN = 1 << 20, PAGE = 4096, UNTOUCHED = 0x5A };
enum conversion { INLINE, BLOCK, DOCUMENT, TEX_INLINE, TEX_BLOCK };

/* The arguments of a call. The calls for TeX also have definitions and flags. */
struct given {
    enum conversion conversion;
    const char *input;
    size_t length;
    const char *definitions;
    size_t definitions_length;
    uint32_t flags;
};

static char *room_end(void) {
    static _Thread_local char *end;
    if (!end) {
        char *start = mmap(NULL, SPAN + PAGE, PROT_READ | PROT_WRITE, MAP_PRIVATE | MAP_ANONYMOUS, -1, 0);
        if (start == MAP_FAILED || mprotect(start + SPAN, PAGE, PROT_NONE))
            abort();
        end = start + SPAN;
    }
    return end;
}

/* The place is 0 after a call that reports none. */
static uint32_t call(struct given given, char *out, size_t room, size_t *needed, size_t *place) {
    if (given.conversion == TEX_INLINE || given.conversion == TEX_BLOCK)
        return latex2mathml_tex(given.definitions ? given.definitions : "", given.definitions_length, given.input, given.length,
                                given.conversion == TEX_BLOCK, given.flags, out, room, needed, place);
    *place = 0;
    if (given.conversion == DOCUMENT)
        return latex2mathml_document(given.input, given.length, out, room, needed);
    return latex2mathml_formula(given.input, given.length, given.conversion == BLOCK, out, room, needed);
}

/* What a call answered, and its room, whose last byte is just before the page. */
struct answer {
    uint32_t code;
    size_t needed, place;
    char *room;
};

static struct answer answer_of(struct given given, size_t room) {
    struct answer answer = {99, 77, 88, room_end() - room};
    memset(answer.room - 64, UNTOUCHED, room + 64);
    answer.code = call(given, answer.room, room, &answer.needed, &answer.place);
    return answer;
}

static bool is_untouched(const char *from, const char *end) {
    while (from < end)
        if (*from++ != UNTOUCHED)
            return false;
    return true;
}

/* What is due for any room that is large enough. */
struct due {
    uint32_t code;
    const char *text;
    size_t needed, place;
};

/* Whether the room contains the text that is due, and is untouched before and after it. */
static bool is_due(struct answer answer, struct due due) {
    return answer.code == due.code && answer.needed == due.needed && answer.place == due.place &&
           !memcmp(answer.room, due.text, due.needed) && is_untouched(answer.room - 64, answer.room) &&
           is_untouched(answer.room + due.needed, room_end());
}

/* Whether the answer says how much is needed for what is due, and nothing was written. */
static bool is_too_small(struct answer answer, size_t needed, size_t place) {
    return answer.code == LATEX2MATHML_TOO_SMALL && answer.needed == needed && answer.place == place &&
           is_untouched(answer.room - 64, room_end());
}

static bool is_out_of_memory(struct answer answer) {
    return answer.code == LATEX2MATHML_OUT_OF_MEMORY && answer.needed == 0 && answer.place == 0 &&
           is_untouched(answer.room - 64, room_end());
}

#endif
