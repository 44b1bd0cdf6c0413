# Completion of the command cqe and of its tools for bash.

# The options of a command of cqe.
_cqe_options() {
    case $1 in
        init) echo --policy --facts --journals ;;
        batch) echo --policy --facts --journals --workers --standby ;;
        audit) echo --policy --facts --journals --user --json ;;
        selfrun) echo --seed --users --asks ;;
        serve) echo --policy --facts --journals --listen --workers --sessions --standby ;;
        migrate) echo --policy --facts --journals --to ;;
        dossier) echo --policy --facts --journals --user ;;
        check) echo --policy --facts --user ;;
        standby) echo --policy --facts --journals --listen --sessions ;;
    esac
}

# The users of the policy that the words name so far.
_cqe_users() {
    local place file=
    for ((place = 1; place < COMP_CWORD; place++)); do
        [[ ${COMP_WORDS[place]} == --policy ]] || continue
        file=${COMP_WORDS[place + 1]}
        [[ $file == = ]] && file=${COMP_WORDS[place + 2]}
    done
    file=${file/#\~\//$HOME/}
    [[ -r $file ]] && sed -n 's/^[[:blank:]]*name[[:blank:]]*=[[:blank:]]*"\([A-Za-z][A-Za-z0-9_]*\)".*/\1/p' "$file"
}

# Those of the options that don't stand among the words yet.
_cqe_unused() {
    local option word
    for option; do
        for word in "${COMP_WORDS[@]:1:COMP_CWORD - 1}"; do
            [[ $word == "$option" ]] && continue 2
        done
        echo "$option"
    done
}

# The value of an option, or status 1 where the option has none. An = is a word of its own here.
_cqe_value() {
    case $1 in
        --policy | --facts | --script | --phrase-file | --history | --ca | --cert | --key)
            compopt -o filenames 2> /dev/null
            mapfile -t COMPREPLY < <(compgen -f -- "$2")
            ;;
        --journals | --to)
            compopt -o filenames 2> /dev/null
            mapfile -t COMPREPLY < <(compgen -d -- "$2")
            ;;
        --user) mapfile -t COMPREPLY < <(compgen -W "$(_cqe_users)" -- "$2") ;;
        --listen | --standby) mapfile -t COMPREPLY < <(compgen -W 127.0.0.1:7007 -- "$2") ;;
        --seed | --users | --asks | --status | --workers | --sessions | --connect-timeout | --reply-timeout) ;;
        *) return 1 ;;
    esac
}

# The words of cqe-check and cqe-lab: their one option, or a policy and its facts.
_cqe_files() {
    if [[ $1 == -* ]]; then
        mapfile -t COMPREPLY < <(compgen -W --help -- "$1")
    elif ((COMP_CWORD < 3)); then
        compopt -o filenames 2> /dev/null
        mapfile -t COMPREPLY < <(compgen -f -- "$1")
    fi
}

# The words of cqe-explain, up to a command behind --.
_cqe_explain() {
    local place
    for ((place = 1; place < COMP_CWORD; place++)); do
        [[ ${COMP_WORDS[place]} == -- ]] || continue
        compopt -o filenames 2> /dev/null
        mapfile -t COMPREPLY < <(compgen -c -f -- "$2")
        return
    done
    _cqe_value "$1" "$2" && return
    # shellcheck disable=SC2046 # each option is a word of its own
    mapfile -t COMPREPLY < <(compgen -W "$(_cqe_unused --policy --facts --script --journals --listen --status --help)" \
        -- "$2")
}

_cqe() {
    local current=${COMP_WORDS[COMP_CWORD]} option=${COMP_WORDS[COMP_CWORD - 1]} choices
    COMPREPLY=()
    if [[ $current == = ]]; then
        current=
    elif [[ $option == = ]]; then
        option=${COMP_WORDS[COMP_CWORD - 2]}
    fi
    case ${COMP_WORDS[0]##*/} in
        cqe-check | cqe-lab)
            _cqe_files "$current"
            return
            ;;
        cqe-explain)
            _cqe_explain "$option" "$current"
            return
            ;;
        cqe-ready)
            ((COMP_CWORD > 1)) || mapfile -t COMPREPLY < <(compgen -W 127.0.0.1:7007 -- "$current")
            return
            ;;
    esac
    _cqe_value "$option" "$current" && return
    if [[ ${COMP_WORDS[0]##*/} == cqe-ask ]]; then
        choices="--phrase-file --history --connect-timeout --reply-timeout --tls --ca --cert --key --help"
        [[ $current == -* ]] || return
    elif [[ ${COMP_WORDS[0]##*/} == cqe-lrat ]]; then
        choices="--policy --facts --user --to --help"
    elif ((COMP_CWORD == 1)); then
        choices="case init batch audit selfrun serve migrate dossier check standby"
    else
        choices=$(_cqe_options "${COMP_WORDS[1]}")
    fi
    # shellcheck disable=SC2086 # each choice is a word of its own
    mapfile -t COMPREPLY < <(compgen -W "$(_cqe_unused $choices)" -- "$current")
}

complete -F _cqe cqe cqe-ask cqe-check cqe-explain cqe-lab cqe-lrat cqe-ready
