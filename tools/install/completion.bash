# Completion of `explore` and `scenes` for bash.
_explore() {
    local word="${COMP_WORDS[COMP_CWORD]}" before="${COMP_WORDS[COMP_CWORD - 1]}"
    COMPREPLY=()
    case "$before" in
        --budget | --workers | =) return ;;
    esac
    if [ "$COMP_CWORD" -eq 1 ]; then
        mapfile -t COMPREPLY < <(compgen -W "run distinct crew assert facts check load" -- "$word")
    elif [[ "${COMP_WORDS[1]}" =~ ^(run|distinct|crew)$ ]]; then
        mapfile -t COMPREPLY < <(compgen -W "--budget --workers" -- "$word")
    elif [[ "${COMP_WORDS[1]}" =~ ^(assert|facts)$ ]]; then
        mapfile -t COMPREPLY < <(compgen -W "--budget" -- "$word")
    elif [ "${COMP_WORDS[1]}" = load ]; then
        mapfile -t COMPREPLY < <(compgen -W "--workers" -- "$word")
    fi
}

_scenes() {
    local word="${COMP_WORDS[COMP_CWORD]}"
    case "$word" in
        -*) mapfile -t COMPREPLY < <(compgen -W "--look --page --port --help" -- "$word") ;;
        *)
            compopt -o filenames 2>/dev/null
            mapfile -t COMPREPLY < <(compgen -f -X '!*.als' -- "$word"; compgen -f -X '!*.explore' -- "$word"; compgen -d -- "$word")
            ;;
    esac
}

# Files of scripts and proofs stand behind `<`, where bash completes names of files by itself.
complete -F _explore explore
complete -F _scenes scenes
