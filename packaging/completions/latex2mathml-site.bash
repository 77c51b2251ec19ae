# completion of latex2mathml-site in bash
_latex2mathml_site() {
    local word=${COMP_WORDS[COMP_CWORD]}
    case ${COMP_WORDS[COMP_CWORD - 1]} in
    --dollars) mapfile -t COMPREPLY < <(compgen -W 'on off' -- "$word") && return ;;
    --jobs) return ;;
    esac
    case $word in
    -*) mapfile -t COMPREPLY < <(compgen -W '--dollars --macros --annotation --strict --check --watch --jobs --fresh --help' -- "$word") ;;
    *) mapfile -t COMPREPLY < <(compgen -f -- "$word") ;;
    esac
}
complete -o filenames -F _latex2mathml_site latex2mathml-site
