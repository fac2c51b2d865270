# Completion of fizhedul for bash. Made by tools/make_share from share/commands.

# The keys of a command.
_fizhedul_keys() {
    local keys=
    case $1 in
        ask) keys='db query cap plan tense wide canon as civil' ;;
        decide) keys='db query cap plan tense wide civil show' ;;
        watch) keys='db query edits cap kept plan' ;;
        list) keys='db query from to limit after form cap plan tense wide civil' ;;
        count) keys='db query from to cap plan tense wide civil' ;;
        ranges) keys='db query from to limit form cap plan tense wide civil' ;;
        explain) keys='db query plan tense wide civil' ;;
        check) keys='db civil' ;;
        lint) keys='db query tense civil' ;;
        sample) keys='seed size' ;;
        shell) keys='db from to limit cap plan tense wide canon civil' ;;
        draw) keys='db query from to format grid marks hour out ranges tree cells cap plan tense wide civil' ;;
        page) keys='db query from to cap plan tense wide civil dates ranges hour engine port open' ;;
        spread) keys='db query queries from to parts by overlap engine out jobs tries hosts scheduler options limit form cap plan tense wide civil' ;;
    esac
    echo "$keys"
}

# What may be imported or exported; after that, files.
_fizhedul_kinds_or_files() {
    local kinds=csv
    [ "$1" = export ] || kinds='gtfs ics csv'
    if [ "$3" -eq 2 ]; then
        mapfile -t COMPREPLY < <(compgen -W "$kinds" -- "$2")
    else
        compopt -o filenames 2>/dev/null
        mapfile -t COMPREPLY < <(compgen -f -- "$2")
    fi
}

# The values of a key that begin so: file names by their ending, folders, or words.
_fizhedul_values() {
    local endings='' values=''
    case $1 in
        db) endings='lrp' ;;
        query) endings='lrq' ;;
        edits) endings='lre' ;;
        plan) values='written guarded' ;;
        tense) values='no yes' ;;
        wide) values='no yes' ;;
        canon) values='no yes' ;;
        civil) values='no yes' ;;
        show) values='minutes dates' ;;
        kept) values='yes auto' ;;
        form) values='plain json' ;;
        format) values='html svg png' ;;
        grid) values='numbers dates' ;;
        ranges) values='no yes' ;;
        tree) values='no yes' ;;
        cells) values='no yes' ;;
        dates) values='no yes' ;;
        engine) values='parallel slurm dask' ;;
        open) values='yes no' ;;
    esac
    if [ -n "$endings" ]; then
        compopt -o filenames 2>/dev/null
        mapfile -t COMPREPLY < <(compgen -f -X "!*.$endings" -- "$2"; compgen -d -- "$2")
    elif [ -n "$values" ]; then
        mapfile -t COMPREPLY < <(compgen -W "$values" -- "$2")
    fi
}

# The values found, as words with their key; bash no longer sees which of them are folders.
_fizhedul_whole_words() {
    local i
    for i in "${!COMPREPLY[@]}"; do
        if [ -d "${COMPREPLY[i]}" ]; then
            COMPREPLY[i]+=/
            compopt -o nospace 2>/dev/null
        fi
        COMPREPLY[i]=$1=${COMPREPLY[i]}
    done
}

_fizhedul() {
    local line=${COMP_LINE:0:COMP_POINT} word key
    local -a words
    read -ra words <<<"$line"
    word=
    [[ $line == *[[:blank:]] ]] || { word=${words[-1]}; unset 'words[-1]'; }
    COMPREPLY=()
    if [ ${#words[@]} -le 1 ]; then
        mapfile -t COMPREPLY < <(compgen -W 'check lint ask decide watch list count ranges explain sample shell draw page import export spread help --version --verify --library' -- "$word")
    elif [ "${words[1]}" = help ]; then
        [ ${#words[@]} -gt 2 ] || mapfile -t COMPREPLY < <(compgen -W 'ask decide watch list count ranges explain check lint sample language page refusals spread workbench' -- "$word")
    elif [ "${words[1]}" = import ] || [ "${words[1]}" = export ]; then
        _fizhedul_kinds_or_files "${words[1]}" "$word" ${#words[@]}
    elif [ "${words[1]}" = spread ] && [ ${#words[@]} -eq 2 ]; then
        mapfile -t COMPREPLY < <(compgen -W 'list count decide' -- "$word")
    elif [[ $word == *=* ]]; then
        _fizhedul_values "${word%%=*}" "${word#*=}"
        # Where bash cuts words at '=', only what stands after it is completed.
        [[ $COMP_WORDBREAKS == *=* ]] || _fizhedul_whole_words "${word%%=*}"
    else
        compopt -o nospace 2>/dev/null
        for key in $(_fizhedul_keys "${words[1]}"); do
            [[ " ${words[*]} " == *" $key="* || $key= != "$word"* ]] || COMPREPLY+=("$key=")
        done
    fi
}

complete -F _fizhedul fizhedul
