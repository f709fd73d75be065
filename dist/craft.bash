# Completion of craft, craft-init and craft-kv for bash.
_craft() {
    local word=${COMP_WORDS[COMP_CWORD]} command=${COMP_WORDS[1]-}
    COMPREPLY=()
    if [ "$COMP_CWORD" = 1 ]; then
        mapfile -t COMPREPLY < <(compgen -W 'replay node ask split join storm --help --version' -- "$word")
        return
    fi
    case $command:$COMP_CWORD in
    node:7) mapfile -t COMPREPLY < <(compgen -f -- "$word") ;;
    ask:6) mapfile -t COMPREPLY < <(compgen -W 'put putif= del get' -- "$word") ;;
    ask:8) mapfile -t COMPREPLY < <(compgen -W '-' -- "$word") ;;
    *:2) mapfile -t COMPREPLY < <(compgen -W '1 2 3 4 5 6 7' -- "$word") ;;
    *:3)
        local k ks=
        [[ ${COMP_WORDS[2]} != [1-7] ]] || for ((k = 1; k <= COMP_WORDS[2] + 1; k++)); do ks+="$k "; done
        mapfile -t COMPREPLY < <(compgen -W "$ks" -- "$word")
        ;;
    esac
}

_craft_init() {
    COMPREPLY=()
    [ "$COMP_CWORD" != 1 ] || mapfile -t COMPREPLY < <(compgen -f -- "${COMP_WORDS[1]}")
}

_craft_kv() {
    COMPREPLY=()
    [ "$COMP_CWORD" != 1 ] || mapfile -t COMPREPLY < <(compgen -W 'get put putif del -r' -- "${COMP_WORDS[1]}")
}

complete -F _craft craft
complete -F _craft_init craft-init
complete -F _craft_kv craft-kv
