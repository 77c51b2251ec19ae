# completion of latex2mathml in bash
_latex2mathml() {
    local word=${COMP_WORDS[COMP_CWORD]}
    if [ "$COMP_CWORD" -eq 1 ]; then
        mapfile -t COMPREPLY < <(compgen -W 'inline block document html' -- "$word")
    elif [ "${COMP_WORDS[1]}" = html ]; then
        mapfile -t COMPREPLY < <(compgen -f -- "$word")
    fi
}
complete -o filenames -F _latex2mathml latex2mathml
