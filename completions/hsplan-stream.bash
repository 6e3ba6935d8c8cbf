# Completions of hsplan-stream for bash, written by tools/gate/write_grammar.py.

_hsplan_stream_commands() {
    case $1 in
        "") echo "places plan answer check report interfaces faults --help --version" ;;
    esac
}

_hsplan_stream_options() {
    case $1 in
        "places") echo "--settings --log --values --help" ;;
        "plan") echo "--settings --costs --capacity --log --values --help" ;;
        "answer") echo "--settings --costs --capacity --log --prices --values --fronts --front --help" ;;
        "check") echo "--settings --costs --capacity --log --prices --values --help" ;;
        "report") echo "--settings --costs --capacity --log --prices --kind --values --help" ;;
        "interfaces") echo "--settings --values --help" ;;
        "faults") echo "--demand --costs --capacity --log --help" ;;
    esac
}

# What stands behind an option of a command: words, files (-f), folders (-d), or what isn't known (-).
_hsplan_stream_values() {
    case $1 in
        *" --settings" | *" --log" | *" --values" | *" --costs" | *" --capacity" | *" --prices" | *" --demand") echo -f ;;
        *" --fronts" | *" --front") echo - ;;
        *" --kind") echo "-W load region" ;;
    esac
}

# The words of a command that belong to no option.
_hsplan_stream_words() {
    case $1 in
        *) echo -f ;;
    esac
}

_hsplan_stream() {
    local current=${COMP_WORDS[COMP_CWORD]} before=${COMP_WORDS[COMP_CWORD - 1]} command=${COMP_WORDS[1]}
    local group= first=1 at values IFS=$' \t\n'
    if [[ $current == = ]]; then
        current=
    elif [[ $before == = ]]; then
        before=${COMP_WORDS[COMP_CWORD - 2]}
    fi
    COMPREPLY=()
    if ((COMP_CWORD <= first)); then
        COMPREPLY=($(compgen -W "$(_hsplan_stream_commands "$group")" -- "$current"))
        return
    fi
    values=$(_hsplan_stream_values "$command $before")
    if [[ -z $values && $current == -* ]]; then
        values="-W $(_hsplan_stream_options "$command")"
    fi
    values=${values:-$(_hsplan_stream_words "$command")}
    if [[ $values == -W* ]]; then
        COMPREPLY=($(compgen -W "${values#-W }" -- "$current"))
    elif [[ $values == -f || $values == -d ]]; then
        compopt -o filenames 2> /dev/null
        IFS=$'\n'
        COMPREPLY=($(compgen "$values" -- "$current"))
    fi
}

complete -F _hsplan_stream hsplan-stream
