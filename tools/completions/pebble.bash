# Completion of pebble in bash: the commands, and names of files where a command takes one.
_pebble() {
    local word=${COMP_WORDS[COMP_CWORD]}
    local commands='improve confirm plan check run exec graph trial judge tidy cache parts cover covercheck'
    COMPREPLY=()
    if [ "$COMP_CWORD" -eq 1 ]; then
        mapfile -t COMPREPLY < <(compgen -W "$commands" -- "$word")
        return
    fi
    case ${COMP_WORDS[1]}/$COMP_CWORD in
    improve/3 | confirm/3 | plan/3 | check/3 | judge/3 | tidy/3 | cache/3 | cover/3 | covercheck/3 | run/2 | exec/2 | trial/4 | parts/4)
        compopt -o filenames 2>/dev/null
        mapfile -t COMPREPLY < <(compgen -f -- "$word")
        ;;
    esac
}
complete -F _pebble pebble
