# completion of tex2mathml in bash
_tex2mathml() {
    local word=${COMP_WORDS[COMP_CWORD]}
    case ${COMP_WORDS[COMP_CWORD - 1]} in
    --display) mapfile -t COMPREPLY < <(compgen -W 'inline block each' -- "$word") ;;
    --definitions) mapfile -t COMPREPLY < <(compgen -f -- "$word") ;;
    *) mapfile -t COMPREPLY < <(compgen -W '--display --definitions --annotation --null --help --version' -- "$word") ;;
    esac
}
complete -o filenames -F _tex2mathml tex2mathml
