# For node-gyp. The library for C, with the addon's source among its examples, is in the folder that LATEX2MATHML_LIB names, or
# else in `lib` next to this file.
{
  "targets": [
    {
      "target_name": "latex2mathml",
      # sources are relative to this folder, libraries to another one
      "sources": ["<!(realpath --relative-to=. ${LATEX2MATHML_LIB:-lib})/examples/addon.c"],
      "include_dirs": ["<!(realpath ${LATEX2MATHML_LIB:-lib})"],
      "libraries": ["<!(realpath ${LATEX2MATHML_LIB:-lib})/liblatex2mathml.a"]
    }
  ]
}
