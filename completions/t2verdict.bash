# Completions of t2verdict for bash, made by bin/pages.py.
_t2verdict() {
    local word=${COMP_WORDS[COMP_CWORD]} before=${COMP_WORDS[COMP_CWORD - 1]}
    COMPREPLY=()
    case $before in
        --safety | --ctl | --finitely | --generate | --trace | --pivots | --splits | --disjuncts | --timeout) return ;;
    esac
    case $word in
        -*) mapfile -t COMPREPLY < <(compgen -W '--termination --safety --ctl --finitely --generate --certificate --check --trace --pivots --splits --disjuncts --timeout --prove --help --version' -- "$word") ;;
        *) mapfile -t COMPREPLY < <(compgen -f -- "$word") ;;
    esac
}
complete -o filenames -F _t2verdict t2verdict
