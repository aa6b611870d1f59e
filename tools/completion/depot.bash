# Completion of depot's command line for bash: `. tools/completion/depot.bash`.
_depot() {
    local word=${COMP_WORDS[COMP_CWORD]} at=1 place
    COMPREPLY=()
    [[ ${COMP_WORDS[1]} == --status ]] && at=2
    place=$((COMP_CWORD - at))
    if ((place <= 0)); then
        local commands="check show newer translate list run run-program batch help --help --version"
        [[ $at == 1 && $1 != *depot-status ]] && commands+=" --status"
        mapfile -t COMPREPLY < <(compgen -W "$commands" -- "$word")
        return
    fi
    local words=
    case ${COMP_WORDS[at]},$place in
    translate,1 | run,1) words="install boot" ;;
    check,1 | show,1 | list,1 | batch,1 | newer,[12] | translate,[23] | run,[23] | run-program,[12]) ;;
    run,4 | run-program,3) words=--then ;;
    run,5 | run-program,4) ;;
    *) return ;;
    esac
    if [[ -n $words ]]; then
        mapfile -t COMPREPLY < <(compgen -W "$words" -- "$word")
    else
        compopt -o filenames 2>/dev/null
        mapfile -t COMPREPLY < <(compgen -f -- "$word")
    fi
}
complete -F _depot depot depot-status
