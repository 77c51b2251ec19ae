# completion of tex2mathml in fish
complete -c tex2mathml -f
complete -c tex2mathml -l display -x -a 'inline block each' -d 'how the formula stands'
complete -c tex2mathml -l definitions -r -F -d 'macros of a file'
complete -c tex2mathml -l annotation -d 'put the LaTeX into the MathML'
complete -c tex2mathml -l null -d 'many formulas, a NUL between them'
complete -c tex2mathml -l help -d 'show the help'
complete -c tex2mathml -l version -d 'show the version'
