# Completions of hsp for bash, written by tools/gate/write_grammar.py.

_hsp_commands() {
    case $1 in
        "") echo "capacity costs day demand doctor export fleet forecast grow new plan sites steer survive view whatif where within --help --version" ;;
        export) echo "haproxy --help" ;;
        fleet) echo "demand dispatch --help" ;;
        "doctor --") echo "locate site plan check dispatch report places answer interfaces faults" ;;
    esac
}

_hsp_options() {
    case $1 in
        "capacity") echo "--into --per --seconds --below --share --site --regex --duration --help" ;;
        "costs") echo "--into --regions --by --elsewhere --site --percentile --by-distance --regex --duration --help" ;;
        "day") echo "--settings --costs --capacity --values --week --reserve --near --unit --all --output --no-save --csv --help" ;;
        "demand") echo "--regions --into --output --log --jobs --percentile --mean --format --regex --client --handle --path --from --to --busiest-hour --time --prefix --elsewhere --by --help" ;;
        "doctor") echo "--settings --demand --costs --capacity --values --strict --json --help" ;;
        "export haproxy") echo "--settings --demand --costs --capacity --values --into --regions --elsewhere --listen --certificate --trusted --watch --socket --proxy --reserve --help" ;;
        "fleet demand") echo "--regions --into --output --keep --format --regex --client --handle --path --from --to --busiest-hour --time --prefix --elsewhere --by --workers --scheduler --tls-ca --tls-cert --tls-key --installed --patience --help" ;;
        "fleet dispatch") echo "--fronts --plan --workers --scheduler --tls-ca --tls-cert --tls-key --installed --patience --help" ;;
        "forecast") echo "--regions --jobs --format --regex --client --handle --path --from --to --busiest-hour --time --prefix --elsewhere --by --help" ;;
        "grow") echo "--settings --demand --costs --capacity --values --percent --unit --json --help" ;;
        "new") echo "--example --help" ;;
        "plan") echo "--settings --demand --costs --capacity --values --unit --reserve --within --near --more --all --output --no-save --csv --json --help" ;;
        "sites") echo "--into --name --capacity --update --remove --host --no-save --help" ;;
        "steer") echo "--settings --demand --costs --capacity --values --into --every --period --metrics --once --status --reserve --help" ;;
        "survive") echo "--settings --demand --costs --capacity --values --reserve --near --buy --into --no-save --unit --all --csv --help" ;;
        "view") echo "--settings --demand --costs --capacity --values --before --reserve --more --unit --title --output --help" ;;
        "whatif") echo "--settings --demand --costs --capacity --values --server --lose --cost --times --from --to --points --step --unit --csv --chart --help" ;;
        "where") echo "--json --help" ;;
        "within") echo "--settings --demand --costs --capacity --values --into --no-save --unit --help" ;;
        "doctor -- locate") echo "--option --servers --settings --values" ;;
        "doctor -- site") echo "--index" ;;
        "doctor -- plan") echo "--settings --demand --costs --capacity --values" ;;
        "doctor -- check") echo "--settings --demand --costs --capacity --plan --values" ;;
        "doctor -- dispatch") echo "--settings --demand --costs --capacity --plan --log --values --fronts" ;;
        "doctor -- report") echo "--settings --demand --costs --capacity --plan --kind --values" ;;
        "doctor -- places") echo "--settings --log --values --help" ;;
        "doctor -- answer") echo "--settings --costs --capacity --log --prices --values --fronts --front --help" ;;
        "doctor -- interfaces") echo "--settings --values --help" ;;
        "doctor -- faults") echo "--demand --costs --capacity --log --help" ;;
    esac
}

# What stands behind an option of a command: words, files (-f), folders (-d), or what isn't known (-).
_hsp_values() {
    case $1 in
        "sites --capacity") echo - ;;
        *" --into" | *" --before") echo -d ;;
        *" --per") echo "-W day hour minute second" ;;
        *" --seconds" | *" --below" | *" --share" | *" --site" | *" --regex" | *" --by" | *" --elsewhere" | *" --percentile" | *" --reserve" | *" --unit" | *" --jobs" | *" --client" | *" --handle" | *" --path" | *" --from" | *" --to" | *" --time" | *" --prefix" | *" --listen" | *" --trusted" | *" --watch" | *" --keep" | *" --workers" | *" --scheduler" | *" --patience" | *" --fronts" | *" --percent" | *" --within" | *" --name" | *" --remove" | *" --host" | *" --every" | *" --period" | *" --title" | *" --server" | *" --lose" | *" --cost" | *" --times" | *" --points" | *" --step" | *" --servers" | *" --index" | *" --front") echo - ;;
        *" --duration") echo "-W us ms s" ;;
        *" --regions" | *" --by-distance" | *" --settings" | *" --costs" | *" --capacity" | *" --values" | *" --output" | *" -o" | *" --log" | *" --demand" | *" --certificate" | *" --socket" | *" --tls-ca" | *" --tls-cert" | *" --tls-key" | *" --plan" | *" --near" | *" --metrics" | *" --chart" | *" --prices") echo -f ;;
        *" --format") echo "-W auto server proxy json csv httplog" ;;
        *" --option") echo "-W na local handle" ;;
        *" --kind") echo "-W load region shortage" ;;
    esac
}

# The words of a command that belong to no option.
_hsp_words() {
    case $1 in
        "day") echo -d ;;
        "doctor") echo -d ;;
        "export haproxy") echo -d ;;
        "grow") echo -d ;;
        "new") echo -d ;;
        "plan") echo -d ;;
        "steer") echo -d ;;
        "survive") echo -d ;;
        "view") echo -d ;;
        "whatif") echo -d ;;
        "within") echo -d ;;
        *) echo -f ;;
    esac
}

_hsp() {
    local current=${COMP_WORDS[COMP_CWORD]} before=${COMP_WORDS[COMP_CWORD - 1]} command=${COMP_WORDS[1]}
    local group= first=1 at values IFS=$' \t\n'
    if ((COMP_CWORD > 1)) && [[ $command == export ]]; then
        group=export first=2 command="export ${COMP_WORDS[2]}"
    fi
    if ((COMP_CWORD > 1)) && [[ $command == fleet ]]; then
        group=fleet first=2 command="fleet ${COMP_WORDS[2]}"
    fi
    for ((at = 2; at < COMP_CWORD; at++)); do
        if [[ $command == doctor && ${COMP_WORDS[at]} == -- ]]; then
            group="doctor --" first=$((at + 1)) command="doctor -- ${COMP_WORDS[at + 1]}"
        fi
    done
    if [[ $current == = ]]; then
        current=
    elif [[ $before == = ]]; then
        before=${COMP_WORDS[COMP_CWORD - 2]}
    fi
    COMPREPLY=()
    if ((COMP_CWORD <= first)); then
        COMPREPLY=($(compgen -W "$(_hsp_commands "$group")" -- "$current"))
        return
    fi
    values=$(_hsp_values "$command $before")
    if [[ -z $values && $current == -* ]]; then
        values="-W $(_hsp_options "$command")"
    fi
    values=${values:-$(_hsp_words "$command")}
    if [[ $values == -W* ]]; then
        COMPREPLY=($(compgen -W "${values#-W }" -- "$current"))
    elif [[ $values == -f || $values == -d ]]; then
        compopt -o filenames 2> /dev/null
        IFS=$'\n'
        COMPREPLY=($(compgen "$values" -- "$current"))
    fi
}

complete -F _hsp hsp
