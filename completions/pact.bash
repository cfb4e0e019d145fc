# shellcheck shell=bash
# Completions of `pact` for bash. Read it in: . completions/pact.bash
_pact() {
    local word=${COMP_WORDS[COMP_CWORD]} before=${COMP_WORDS[COMP_CWORD - 1]} options=
    COMPREPLY=()
    if [ "$COMP_CWORD" -eq 1 ]; then
        mapfile -t COMPREPLY < <(compgen -W 'run plan cert check sets gen drill iterate' -- "$word")
        return
    fi
    case $before in
        --local) mapfile -t COMPREPLY < <(compgen -W 'hash sort' -- "$word"); return ;;
        --workers | --plans | --batch | --depth) return ;;
    esac
    case ${COMP_WORDS[1]} in
        run) options='--workers --plans --batch --depth --local --prune --combine --counts' ;;
        plan | cert) options='--workers --plans' ;;
        drill) options='--workers --plans --batch --depth --local --prune --combine' ;;
        iterate) options='--workers --plans --batch --depth --local --stable' ;;
    esac
    if [[ $word == -* ]]; then
        mapfile -t COMPREPLY < <(compgen -W "$options" -- "$word")
    else
        mapfile -t COMPREPLY < <(compgen -f -- "$word")
    fi
}
complete -F _pact pact
