# Completion of profhouse for bash: copy this to ~/.local/share/bash-completion/completions/profhouse,
# or source it in ~/.bashrc. tests/words_of_help tries it.

# Words that the store of the command line holds. sqlite3 tells them at once, where the program would check the whole
# store first; where it is missing, or the store is served or not there, nothing is offered.
_profhouse_held()
{
    local at db= limit=()
    for ((at = 2; at < COMP_CWORD; at++)); do
        [[ ${COMP_WORDS[at]} == --db ]] && db=${COMP_WORDS[at + 1]}
        [[ $db == = ]] && db=${COMP_WORDS[at + 2]}
    done
    db=${db/#\~\//$HOME/} db=${db/#-/./-}
    # (in a stranger's file a view may stand in place of a table: edit() in it would run a command, and it may have no end)
    type -P timeout >/dev/null && limit=(timeout 2)
    [[ -s $db ]] && ${limit[@]+"${limit[@]}"} sqlite3 -init /dev/null -batch -readonly -cmd 'PRAGMA trusted_schema = OFF' "$db" "$1" 2>/dev/null
}

_profhouse()
{
    local word=${COMP_WORDS[COMP_CWORD]} before=${COMP_WORDS[COMP_CWORD - 1]}
    local commands="total import runs by inclusive callers callees subtract verify annotate csv folded group join leave baseline groups remove serve help"
    local options="--db --help" operands=
    COMPREPLY=()

    # bash takes `--db=s.db` for three words.
    if [[ $word == = ]]; then
        word=
    elif [[ $before == = ]]; then
        before=${COMP_WORDS[COMP_CWORD - 2]}
    fi

    if ((COMP_CWORD == 1)); then
        mapfile -t COMPREPLY < <(compgen -W "$commands --help --version" -- "$word")
        return
    fi

    case ${COMP_WORDS[1]} in
        total) options="--help" operands=files ;;
        import) options+=" --folded" operands=files ;;
        remove | runs | groups | join | leave | baseline) ;;
        group) options+=" --drop" ;;
        by) options+=" --run --group --event --limit --threshold" operands="object file function line thread" ;;
        inclusive) options+=" --run --group --event" ;;
        callers | callees) options+=" --run --group --event --object" ;;
        subtract) options+=" --run --group --less-run --less-group --event" operands="object file function line thread" ;;
        verify | csv | folded) options+=" --run --group" ;;
        annotate) options+=" --run --group --event --file" operands=files ;;
        serve) options+=" --port --requests --most-bytes --log" ;;
        help) options='' operands=$commands ;;
        *) return ;;
    esac

    local held=
    case $before in
        --db) options='' operands=files ;;
        --event) held="SELECT CAST(name AS TEXT) FROM run_event UNION SELECT CAST(name AS TEXT) FROM derived" ;;
        --group | --less-group) held="SELECT name FROM grp" ;;
        --run | --less-run) held="SELECT run FROM run" ;;
        --limit | --threshold | --object | --file | --port | --requests | --most-bytes) return ;;
    esac
    if [[ $held ]]; then
        # (compgen -W would run what stands in $(..) in the name of an event)
        while IFS= read -r held; do
            # (and in this locale printf leaves no character that a terminal obeys)
            [[ $held == "$word"* ]] && COMPREPLY+=("$(LC_ALL=C printf %q "$held")")
        done < <(_profhouse_held "$held")
        return
    fi

    if [[ $options && $word == -* ]]; then
        mapfile -t COMPREPLY < <(compgen -W "$options" -- "$word")
    elif [[ $operands == files ]]; then
        compopt -o filenames 2>/dev/null
        mapfile -t COMPREPLY < <(compgen -f -- "$word")
    elif [[ $operands ]]; then
        mapfile -t COMPREPLY < <(compgen -W "$operands" -- "$word")
    fi
}

complete -F _profhouse profhouse
