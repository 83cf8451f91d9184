# The line that says on a terminal why nothing happens, while a command is at work. ./nolzavirt reads it.
#
# It comes after two seconds, is renewed each second, and is cleared before the command's own output. Where standard error is no
# terminal there is none.

# A path of a lookup asks 256 nodes at most, and each has its time. A try of `mint` took a microsecond where that was measured, and
# there may be as many for the key as for X. A simulated lookup took some hundredths of a second.
path_nodes=256
tries_a_second=1000000
usual_tries=1048576

# Sets what the line says of a command: what it does, since when if that is said, and how long it takes.
choose_waiting() {
    doing='' since='' most=''
    milliseconds=$(value_of timeout "$@")
    milliseconds=${milliseconds:-2000}
    if [ -n "$unproved" ]; then
        doing="compiles $(crates_below) crates unproved"
        most='60 to 120 s'
        return
    fi
    case $1 in
        lookup | peers | get | put)
            doing='waits for answers'
            most="$((path_nodes * milliseconds / 1000)) s at most"
            ;;
        refresh)
            doing='waits for answers'
            [ ! -f /dev/stdin ] || choose_longest_pings /dev/stdin "$@"
            ;;
        mint)
            doing='tries keys' since=yes
            tries=$(value_of tries "$@")
            most="some $((2 * ${tries:-$usual_tries} / tries_a_second + 1)) s at most"
            ;;
        sim) doing='simulates' since=yes most='a few s at most' ;;
    esac
}

# Sets how long the pings of a saved table take at most: two for each node that is pinged, one after another.
choose_longest_pings() {
    table=$1 what='^row '
    shift
    [ "$(value_of all "$@")" != yes ] || what='^live '
    most="$((2 * $(grep -c "$what" "$table") * milliseconds / 1000)) s at most"
}

# How many crates of the repository the program is made of.
crates_below() {
    awk -F: '
        function visit(name, names, amount, i) {
            if (name in seen || !(name in uses)) return
            seen[name]; total++
            amount = split(uses[name], names, " ")
            for (i = 1; i <= amount; i++) visit(names[i])
        }
        /^#/ || NF < 2 { next }
        { split($1, front, " "); uses[front[1]] = $2 }
        END { visit("node_main"); print total }
    ' "$root/crates.txt"
}

# Draws the line until it is ended, or this script is. While the input is still to come there is none.
draw_waiting() {
    began=$(date +%H:%M:%S) seconds=0
    columns=$(stty size 2>/dev/null <&2 | cut -d ' ' -f 2)
    [ "${columns:-0}" -gt 0 ] || columns=80
    while kill -0 $$ 2>/dev/null; do
        sleep 1 >/dev/null 2>&1
        if [ -n "$copier" ] && kill -0 "$copier" 2>/dev/null; then
            seconds=0 began=$(date +%H:%M:%S)
            continue
        fi
        seconds=$((seconds + 1))
        [ "$seconds" -ge 2 ] || continue
        [ -n "$most" ] || [ -z "$pipe" ] || choose_longest_pings "$place/input" "$@"
        [ -z "$unproved" ] || [ "$seconds" -le 120 ] || doing='compiles, or runs the command by now,' most=
        printf '\r%.*s\033[K\r' "$((columns - 1))" \
            "nolzavirt: $doing${since:+ since $began}, $seconds s${most:+ of $most}; Ctrl-C ends it" >&2
    done
}

# Sets whether there is a line for this command, and where its output waits for the end of the line on the same terminal.
prepare_waiting() {
    doing='' kept_back=''
    [ -t 2 ] && [ -z "$wrong" ] || return 0
    choose_waiting "$@"
    if [ -n "$doing" ] && [ -t 1 ] && make_place; then
        kept_back=$place/output
    elif [ -t 1 ]; then
        doing=
    fi
}

begin_waiting() {
    [ -n "$doing" ] || return 0
    draw_waiting "$@" >/dev/null &
    waiter=$!
}

# Clears the line, and prints what was kept back.
end_waiting() {
    [ -n "$waiter" ] || return 0
    { kill -KILL "$waiter"; wait "$waiter"; } 2>/dev/null
    waiter=
    printf '\r\033[K' >&2
    [ -z "$kept_back" ] || cat "$kept_back" 2>/dev/null
}
