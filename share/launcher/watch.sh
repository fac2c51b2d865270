# Runs the program for someone who watches: shows that long work goes on, and has a refusal explained. Standard output
# and the status are the program's own, byte for byte; all else goes to standard error. Sourced by the launcher, which
# has set `program`, `share` and `words`. Python is started for an explanation alone.

# What has begun to be written, whether that is all of it, and the process of the program.
front=
is_whole=
child=
early=()
signalled=

# Passes a signal that would end this process on to the program, which ends this one after itself.
pass_on() {
    signalled=$1
    if [ -n "$child" ]; then kill -s "$1" "$child" 2>/dev/null; else early+=("$1"); fi
}

# Waits for a process, whatever signals come meanwhile; the status is its own.
await() {
    local status later
    signalled=
    wait "$1"
    status=$?
    while [ -n "$signalled" ]; do
        signalled=
        wait "$1"
        later=$?
        [ "$later" -eq 127 ] || status=$later
    done
    return "$status"
}

# The width of the terminal.
width() {
    local size
    size=$(stty size <&2 2>/dev/null)
    size=${size#* }
    [[ $size =~ ^[1-9][0-9]*$ ]] || size=80
    echo "$size"
}

# Shows the seconds gone in one line of the terminal, which the next one replaces.
show_time() {
    local text="fizhedul: $1 s"
    [ "$1" -lt 10 ] || text+="; 'fizhedul explain' shows the plan, 'cap=' bounds the work"
    printf '\r\e[K%s' "${text:0:$(($(width) - 1))}" >&2
}

# Reads the first bytes of what the program writes; until they come, a terminal is shown the time gone.
read_front() {
    local LC_ALL=C began=$SECONDS piece status shown=
    while true; do
        IFS= read -r -d '' -t 1 -n 200 -u "$source" piece
        status=$?
        front+=$piece
        if [ "$status" -le 128 ] || [ -n "$front" ]; then break; fi
        if [ $((SECONDS - began)) -ge 2 ] && [ -t 2 ] && [ "${TERM:-dumb}" != dumb ]; then
            shown=yes
            show_time $((SECONDS - began))
        fi
    done
    [ -z "$shown" ] || printf '\r\e[K' >&2
    if [ "$status" -gt 0 ] && [ "$status" -le 128 ]; then
        is_whole=yes
    elif [ "$status" -eq 0 ] && [ "${#piece}" -lt 200 ]; then
        # A byte of zero ended what was read.
        zero='\0'
    fi
}

# Hands on what the program writes, from its first bytes to its last.
hand_on() {
    printf "%s$zero" "$front" || return
    [ -n "$is_whole" ] || exec cat <&"$source"
}

# Starts the program with the signals of a process that nobody has put into the background. It writes into a pipe of which
# `source` is the other end. It is a job, and no process substitution: of these the shell now and then loses the status.
start() {
    local in pipe sink
    { exec {in}<&0; } 2>/dev/null || exec {in}</dev/null
    exec {pipe}<> <(:)
    exec {source}<"/dev/fd/$pipe" {sink}>"/dev/fd/$pipe" {pipe}>&-
    env --default-signal=INT,QUIT "$program" "${words[@]}" <&"$in" >&"$sink" {in}<&- {source}<&- {sink}>&- &
    child=$!
    exec {in}<&- {sink}>&-
    local signal
    for signal in "${early[@]}"; do kill -s "$signal" "$child"; done
}

# Has the line of a refusal explained, or an output that could not be written.
explain() {
    local python=/usr/bin/python3
    [ -x "$python" ] || python=$(command -v python3) || return
    "$python" -EsB "$share/launcher/explain.py" "$program" "$1" "${words[@]}" >&2
}

watch() {
    local status written signal zero=
    for signal in INT TERM HUP; do trap "pass_on $signal" "$signal"; done
    start
    read_front
    hand_on 2>/dev/null &
    written=$!
    exec {source}<&-
    await "$written"
    written=$?
    await "$child"
    status=$?
    trap - INT TERM HUP
    [ "$status" -le 128 ] || kill -s $((status - 128)) $$
    case $written:$status in
        0:[234568]) [ -z "$is_whole" ] || explain "${front%$'\n'}" ;;
        0:*) ;;
        141:*) status=7 ;;
        *)
            status=7
            explain '' ;;
    esac
    exit "$status"
}
