// The header in C++, included twice: its names are those of C, and its macro is one value wherever it is used.
#include "latex2mathml.h"
#include "latex2mathml.h"

#include <cstdio>
#include <string>

static_assert(2 * LATEX2MATHML_ROOM(3) == LATEX2MATHML_ROOM(3) + LATEX2MATHML_ROOM(3), "the macro is one operand");
static_assert(LATEX2MATHML_ROOM(1 + 2) == LATEX2MATHML_ROOM(3), "what it is given is one operand");

int main() {
    std::string formula = "x<y", room(2 * LATEX2MATHML_ROOM(formula.size()), ' ');
    size_t needed;
    if (latex2mathml_formula(formula.data(), formula.size(), true, &room[0], room.size(), &needed) != LATEX2MATHML_DONE)
        return 1;
    room.resize(needed);
    std::puts(room.c_str());
    std::string document = "a $x<y$";
    room.resize(LATEX2MATHML_ROOM(document.size()));
    if (latex2mathml_document(document.data(), document.size(), &room[0], room.size(), &needed) != LATEX2MATHML_DONE)
        return 1;
    room.resize(needed);
    std::puts(room.c_str());
    std::string definitions = "\\def\\less{<}", tex = "x\\less y";
    size_t place;
    room.resize(LATEX2MATHML_ROOM(tex.size()));
    if (latex2mathml_tex(definitions.data(), definitions.size(), tex.data(), tex.size(), true, 0, &room[0], room.size(), &needed,
                         &place) != LATEX2MATHML_DONE)
        return 1;
    room.resize(needed);
    std::puts(room.c_str());
}
