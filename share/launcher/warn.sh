# Warnings of what the program answers without a word: a window whose ends are exchanged, and what `lint` finds in the
# database and in the query. Sourced by the launcher, which has set `share`, and later `program` and `words`. Python is
# started where there is something to tell.

# Where a terminal is warned unasked, longer files are not looked through.
most_bytes=250000

# Warns of a window whose first end is after its last one.
warn_of_window() {
    local word from='' to='' number='^(0|-?[1-9][0-9]{0,18})$' date='^[0-9]{4}-[0-9]{2}-[0-9]{2}T[0-9]{2}:[0-9]{2}$'
    for word in "$@"; do
        case $word in
            from=*) from=${word#*=} ;;
            to=*) to=${word#*=} ;;
        esac
    done
    if [[ $from =~ $number && $to =~ $number ]] && ((from > to)) || [[ $from =~ $date && $to =~ $date && $from > $to ]]; then
        echo "fizhedul: warning: no answer lies in this window, since from=$from is after to=$to" >&2
    fi
}

# Whether a file may be read twice, and is looked through: none that is no file, as a pipe.
is_looked_through() {
    [ -f "$1" ] && [ -r "$1" ] || return
    [ "${FIZHEDUL_WARN-}" = always ] || [ "$(stat -L -c %s -- "$1")" -le "$most_bytes" ]
}

# Warns of what `lint` finds in the files of a command. A refusal is the command's own to tell. In a query in the wide
# language nothing is looked for, since `lint` doesn't read it.
warn_of_texts() {
    local word found python=/usr/bin/python3 lint=(lint)
    [[ ${words[0]-} =~ ^(ask|decide|watch|list|count|ranges|explain|check)$ ]] || return
    for word in "${words[@]:1}"; do
        case $word in
            query=*) [[ " ${words[*]} " != *' wide=yes '* ]] || continue ;;&
            db=* | query=*)
                is_looked_through "${word#*=}" || return
                lint+=("$word") ;;
            tense=* | civil=*) lint+=("$word") ;;
        esac
    done
    found=$("$program" "${lint[@]}" 2>/dev/null </dev/null) || return
    [ "$found" != end ] || return
    [ -x "$python" ] || python=$(command -v python3) || return
    "$python" -EsB "$share/launcher/warn.py" "${words[@]}" >&2 <<<"$found"
}
