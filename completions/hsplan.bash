# Completions of hsplan for bash, written by tools/gate/write_grammar.py.

_hsplan_commands() {
    case $1 in
        "") echo "locate site plan check dispatch report" ;;
    esac
}

_hsplan_options() {
    case $1 in
        "locate") echo "--option --servers --settings --values" ;;
        "site") echo "--index" ;;
        "plan") echo "--settings --demand --costs --capacity --values" ;;
        "check") echo "--settings --demand --costs --capacity --plan --values" ;;
        "dispatch") echo "--settings --demand --costs --capacity --plan --log --values --fronts" ;;
        "report") echo "--settings --demand --costs --capacity --plan --kind --values" ;;
    esac
}

# What stands behind an option of a command: words, files (-f), folders (-d), or what isn't known (-).
_hsplan_values() {
    case $1 in
        *" --option") echo "-W na local handle" ;;
        *" --servers" | *" --index" | *" --fronts") echo - ;;
        *" --settings" | *" --values" | *" --demand" | *" --costs" | *" --capacity" | *" --plan" | *" --log") echo -f ;;
        *" --kind") echo "-W load region shortage" ;;
    esac
}

# The words of a command that belong to no option.
_hsplan_words() {
    case $1 in
        *) echo -f ;;
    esac
}

_hsplan() {
    local current=${COMP_WORDS[COMP_CWORD]} before=${COMP_WORDS[COMP_CWORD - 1]} command=${COMP_WORDS[1]}
    local group= first=1 at values IFS=$' \t\n'
    if [[ $current == = ]]; then
        current=
    elif [[ $before == = ]]; then
        before=${COMP_WORDS[COMP_CWORD - 2]}
    fi
    COMPREPLY=()
    if ((COMP_CWORD <= first)); then
        COMPREPLY=($(compgen -W "$(_hsplan_commands "$group")" -- "$current"))
        return
    fi
    values=$(_hsplan_values "$command $before")
    if [[ -z $values && $current == -* ]]; then
        values="-W $(_hsplan_options "$command")"
    fi
    values=${values:-$(_hsplan_words "$command")}
    if [[ $values == -W* ]]; then
        COMPREPLY=($(compgen -W "${values#-W }" -- "$current"))
    elif [[ $values == -f || $values == -d ]]; then
        compopt -o filenames 2> /dev/null
        IFS=$'\n'
        COMPREPLY=($(compgen "$values" -- "$current"))
    fi
}

complete -F _hsplan hsplan
