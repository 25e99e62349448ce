# Completion of printer, verify and chart for bash: source this file.
_printer() {
    local word=${COMP_WORDS[COMP_CWORD]} last=${COMP_WORDS[COMP_CWORD-1]}
    case $last in
    --budget) return ;;
    printer | */printer | ./try) COMPREPLY=($(compgen -W 'run check save resume compose farm soak --bounds --budget' -- "$word")); return ;;
    esac
    case $word in
    -*) COMPREPLY=($(compgen -W '--bounds --budget' -- "$word")) ;;
    *) COMPREPLY=($(compgen -f -- "$word")) ;;
    esac
}
_chart() {
    local word=${COMP_WORDS[COMP_CWORD]}
    case ${COMP_WORDS[COMP_CWORD-1]} in
    --machine) COMPREPLY=($(compgen -W '1 2 3 4 5 6 7 8' -- "$word")); return ;;
    --from | --at) return ;;
    esac
    case $word in
    -*) COMPREPLY=($(compgen -W '--sheets --html --from --at --machine' -- "$word")) ;;
    *) COMPREPLY=($(compgen -f -X '!*.@(toml|json)' -- "$word")) ;;
    esac
}
complete -o filenames -F _printer printer ./printer ./try
_verify() {
    COMPREPLY=($(compgen -f -X '!*.toml' -- "${COMP_WORDS[COMP_CWORD]}"))
}
complete -o filenames -F _verify verify ./verify
complete -o filenames -F _chart chart ./chart
