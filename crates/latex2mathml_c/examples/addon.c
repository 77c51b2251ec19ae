/* latex2mathml for Node: formula(latex, block) is the `math` element, and document(text) the document with the `math`
 * element of each formula in the formula's place. Where there is none, an error is thrown: its message is the reason, and
 * its `code` is LATEX2MATHML_REFUSED. tex(formula, block, definitions, annotation) is the `math` element of a formula in LaTeX
 * as authors write it, with the formula as an annotation if that is true. Its errors have a `place`, the byte of the formula where
 * what is refused begins, or of the definitions if their `code` is LATEX2MATHML_DEFINITION_REFUSED.
 *     cc -shared -fPIC -I .. -I /usr/include/node addon.c ../liblatex2mathml.a -o latex2mathml.node
 *     node -p "require('./latex2mathml.node').formula('x<y', false)" */
#include "latex2mathml.h"

#include <node_api.h>
#include <stdlib.h>

/* A text of Node's as UTF-8, and the result of its conversion, which the caller frees. */
struct text {
    char *bytes; /* null if memory runs out, or if the value is not a text */
    size_t length;
};

/* Surrogates without a partner become U+FFFD. */
static struct text text_of(napi_env env, napi_value word) {
    struct text text = {NULL, 0};
    if (napi_get_value_string_utf8(env, word, NULL, 0, &text.length) == napi_ok)
        text.bytes = malloc(text.length + 1);
    if (text.bytes)
        napi_get_value_string_utf8(env, word, text.bytes, text.length + 1, &text.length);
    return text;
}

enum kind { INLINE, BLOCK, DOCUMENT, TEX_INLINE, TEX_BLOCK };

/* What is to be converted. Only TeX has definitions and flags. */
struct job {
    enum kind kind;
    struct text text, definitions;
    uint32_t flags;
};

static bool is_tex(enum kind kind) {
    return kind == TEX_INLINE || kind == TEX_BLOCK;
}

static uint32_t call(const struct job *job, char *room, size_t length, size_t *needed, size_t *place) {
    struct text text = job->text, definitions = job->definitions;
    if (job->kind == DOCUMENT)
        return latex2mathml_document(text.bytes, text.length, room, length, needed);
    if (is_tex(job->kind))
        return latex2mathml_tex(definitions.bytes, definitions.length, text.bytes, text.length, job->kind == TEX_BLOCK, job->flags,
                                room, length, needed, place);
    return latex2mathml_formula(text.bytes, text.length, job->kind == BLOCK, room, length, needed);
}

struct answer {
    uint32_t code;
    struct text text;
    size_t place;
};

static struct answer convert(const struct job *job) {
    struct answer answer = {LATEX2MATHML_OUT_OF_MEMORY, {NULL, LATEX2MATHML_ROOM(job->text.length)}, 0};
    do {
        size_t room = answer.text.length;
        free(answer.text.bytes);
        answer.text.bytes = malloc(room);
        if (!answer.text.bytes)
            return answer;
        answer.code = call(job, answer.text.bytes, room, &answer.text.length, &answer.place);
    } while (answer.code == LATEX2MATHML_TOO_SMALL); /* twice at most */
    if (answer.code == LATEX2MATHML_OUT_OF_MEMORY) {
        free(answer.text.bytes);
        answer.text.bytes = NULL;
    }
    return answer;
}

/* The error that has this text as its message, or null. */
static napi_value error_of(napi_env env, const struct answer *answer, napi_value message, bool has_place) {
    bool is_definition = answer->code == LATEX2MATHML_DEFINITION_REFUSED;
    napi_value name, error, place;
    if (napi_create_string_utf8(env, is_definition ? "LATEX2MATHML_DEFINITION_REFUSED" : "LATEX2MATHML_REFUSED", NAPI_AUTO_LENGTH,
                                &name) != napi_ok ||
        napi_create_error(env, name, message, &error) != napi_ok)
        return NULL;
    if (has_place && (napi_create_int64(env, (int64_t)answer->place, &place) != napi_ok ||
                      napi_set_named_property(env, error, "place", place) != napi_ok))
        return NULL;
    return error;
}

/* The answer as the value that is returned, or as an error that is thrown: also where Node has no string of its length. */
static napi_value result_of(napi_env env, const struct answer *answer, bool has_place) {
    napi_value value, error;
    if (napi_create_string_utf8(env, answer->text.bytes, answer->text.length, &value) != napi_ok) {
        napi_throw_range_error(env, "ERR_STRING_TOO_LONG", "The answer is longer than a string of Node can be.");
        return NULL;
    }
    if (answer->code == LATEX2MATHML_DONE)
        return value;
    error = error_of(env, answer, value, has_place);
    if (error)
        napi_throw(env, error);
    return NULL;
}

/* The words are the text and, for TeX, the definitions. */
static napi_value convert_values(napi_env env, enum kind kind, napi_value word, napi_value definitions, uint32_t flags) {
    napi_value value = NULL;
    struct job job = {kind, text_of(env, word), {NULL, 0}, flags};
    struct answer answer = {LATEX2MATHML_OUT_OF_MEMORY, {NULL, 0}, 0};
    if (is_tex(kind))
        job.definitions = text_of(env, definitions);
    if (job.text.bytes && (!is_tex(kind) || job.definitions.bytes))
        answer = convert(&job);
    if (answer.text.bytes)
        value = result_of(env, &answer, is_tex(kind));
    else
        napi_throw_error(env, "LATEX2MATHML_OUT_OF_MEMORY", "Memory could not be found.");
    free(job.text.bytes);
    free(job.definitions.bytes);
    free(answer.text.bytes);
    return value;
}

static bool is_string(napi_env env, napi_value word) {
    napi_valuetype type;
    return napi_typeof(env, word, &type) == napi_ok && type == napi_string;
}

static napi_value formula(napi_env env, napi_callback_info info) {
    size_t count = 2;
    napi_value words[2];
    bool block = false;
    napi_get_cb_info(env, info, &count, words, NULL, NULL);
    if (count < 1 || !is_string(env, words[0]) ||
        (count > 1 && napi_get_value_bool(env, words[1], &block) != napi_ok)) {
        napi_throw_type_error(env, NULL, "formula(latex, block) takes a string and a boolean");
        return NULL;
    }
    return convert_values(env, block ? BLOCK : INLINE, words[0], NULL, 0);
}

static napi_value document(napi_env env, napi_callback_info info) {
    size_t count = 1;
    napi_value word;
    napi_get_cb_info(env, info, &count, &word, NULL, NULL);
    if (count < 1 || !is_string(env, word)) {
        napi_throw_type_error(env, NULL, "document(text) takes a string");
        return NULL;
    }
    return convert_values(env, DOCUMENT, word, NULL, 0);
}

static napi_value tex(napi_env env, napi_callback_info info) {
    size_t count = 4;
    napi_value words[4];
    bool block = false, annotation = false;
    napi_get_cb_info(env, info, &count, words, NULL, NULL);
    if (count < 1 || !is_string(env, words[0]) || (count > 1 && napi_get_value_bool(env, words[1], &block) != napi_ok) ||
        (count > 2 && !is_string(env, words[2])) || (count > 3 && napi_get_value_bool(env, words[3], &annotation) != napi_ok)) {
        napi_throw_type_error(env, NULL,
                              "tex(formula, block, definitions, annotation) takes a string, a boolean, a string and a boolean");
        return NULL;
    }
    if (count < 3 && napi_create_string_utf8(env, "", 0, &words[2]) != napi_ok)
        return NULL;
    return convert_values(env, block ? TEX_BLOCK : TEX_INLINE, words[0], words[2], annotation ? LATEX2MATHML_ANNOTATION : 0);
}

static void define(napi_env env, napi_value exports, const char *name, napi_callback callback) {
    napi_value function;
    if (napi_create_function(env, name, NAPI_AUTO_LENGTH, callback, NULL, &function) == napi_ok)
        napi_set_named_property(env, exports, name, function);
}

NAPI_MODULE_INIT() {
    define(env, exports, "formula", formula);
    define(env, exports, "document", document);
    define(env, exports, "tex", tex);
    return exports;
}
