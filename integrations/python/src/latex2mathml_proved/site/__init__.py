r"""Converts the formulas in the pages of a built site: the command `latex2mathml-site`.

    latex2mathml-site IN [OUT]

| Module | What it does |
|---|---|
| `elements` | says which elements hold no formulas, and which are formulas |
| `scanner` | finds the formulas of a page |
| `settings` | reads macros from the settings of MathJax and KaTeX |
| `pages` | converts a page |
| `folders` | finds the files of a site |
| `writing` | replaces files so that none is ever half written |
| `record` | remembers which pages are as an earlier run left them |
| `processes` | does work in several processes |
| `building` | converts a site |
| `watching` | converts it again after each change |
| `command` | reads the command line |
"""
