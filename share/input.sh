# What a command reads, kept so that a line of it can be shown. ./nolzavirt reads it.
#
# A file is read again from where the command began. What comes by a pipe or from a terminal goes to the command by `tee`, which
# hands it on as it comes; an input of anything else is not kept.

# A folder that is removed at the end of the script.
place=
make_place() {
    [ -z "$place" ] || return 0
    place=$(mktemp -d 2>/dev/null) || return 1
    trap 'rm -rf -- "$place"' EXIT
}

# Sets how a command's input is kept: the place in a file, or the pipe by which it is handed on.
begin_input() {
    pipe='' offset='' copier=''
    if is_among "$1" 'mint sim' || [ -n "$wrong" ]; then
        return
    elif [ -f /dev/stdin ]; then
        offset=$(sed -n 's/^pos:[^0-9]*//p' /proc/self/fdinfo/0 2>/dev/null)
    elif [ -p /dev/stdin ] || [ -S /dev/stdin ] || { [ -t 0 ] && [ -z "$unproved" ]; }; then
        make_place && mkfifo "$place/pipe" 2>/dev/null && pipe=$place/pipe
    fi
}

copy_input() {
    become tee "$place/input" >"$pipe" 2>/dev/null
}

# Sets the file that has what was read, if it was kept.
find_input() {
    input=
    if [ -f /dev/stdin ] && make_place; then
        tail -c "+$((${offset:-0} + 1))" /dev/stdin >"$place/input" 2>/dev/null || return 1
    elif [ -z "$pipe" ]; then
        return 1
    fi
    [ -e "$place/input" ] && input=$place/input
}

# ---------------------------------------------------------------------------------------------------- which line it was

# An input, of whose lines those that begin as jobs are left, or those that don't; each other one is a comment.
only_jobs() {
    sed -e '/^find/b' -e '/^peers/b' -e '/^announce/b' -e '/^get/b' -e '/^put/b' -e 's/.*/#/' "$input"
}

no_jobs() {
    sed -e '/^find/s/.*/#/' -e '/^peers/s/.*/#/' -e '/^announce/s/.*/#/' -e '/^get/s/.*/#/' -e '/^put/s/.*/#/' "$input"
}

# The number of the line that a run of the program says to be bad.
number_of() {
    "$program" "$@" 2>/dev/null | sed -n 's/^bad line //p'
}

# The number of the first bad line. The program is asked again, so that nobody is sent anything: `check` reads nodes as each
# command does, and `node` without nodes asks nobody.
bad_line_number() {
    if [ -n "$unproved" ]; then
        [ "$1" = refresh ] || LC_ALL=C awk -v seek=1 -v command="$1" -f "$share/bad_line.awk" "$input"
        return
    fi
    case $1 in
        refresh) number_of refresh --timeout 1 <"$input" ;;
        node) { no_jobs | number_of check && only_jobs | number_of node; } | sort -n | head -n 1 ;;
        *) number_of check <"$input" ;;
    esac
}

# Shows a line of the input by its number, and says what is wrong with it if that is a usual mistake.
show_line() {
    contacts=interop/contacts
    [ -z "$installed" ] || contacts=nolzavirt-contacts
    is_end=
    [ "$2" -le "$(awk 'END { print NR }' "$input")" ] || is_end=1
    jobs=$(sed "$2q" "$input" | LC_ALL=C grep -cE '^(find|peers|announce|get|put) ')
    full=$(written_out "$(sed -n "$2p" "$input" | tr -d '\r' | cut -d ' ' -f 2)" 2>/dev/null)
    total=$(sed -n "$2p" "$input" | tr -d '\n' | wc -c)
    sed -n "$2p" "$input" | head -c 8192 | od -An -v -tu1 |
        LC_ALL=C awk -v command="$1" -v jobs="$jobs" -v total="$total" -v is_end="$is_end" -v contacts="$contacts" -v me="$me" -v full="$full" \
            -f "$share/bad_line.awk" |
        {
            IFS= read -r shown
            IFS= read -r said
            if [ -n "$is_end" ]; then say "there is no line $2."; else say "line $2 is: $shown"; fi
            [ -z "$said" ] || say "$said."
        }
}

explain_bad_line() {
    find_input || return 0
    number=$(bad_line_number "$1")
    ! is_number "$number" 1 1048577 || show_line "$1" "$number"
}

# Says why no line of the input is a node that can be asked, where that can be seen at once.
explain_no_seeds() {
    if [ -c /dev/stdin ] && [ ! -t 0 ]; then
        [ "$(head -c 1 /dev/stdin | wc -c)" -gt 0 ] || say "the input is empty: no line names a node to begin with."
    elif find_input; then
        LC_ALL=C awk -v family="$(value_of family "$@")" '
            { sub(/\r$/, "") }
            /^#/ || /^$/ || /^(find|peers|announce|get|put) / { next }
            { nodes++; if (($2 ~ /^\[/) != (family == 6)) others++; if ($2 ~ /:0$/) ports++ }
            END {
                if (!NR) print "the input is empty: no line names a node to begin with."
                else if (!nodes) print "the input has no line of a node."
                else if (others == nodes) print "all nodes of the input are of IPv" (family == 6 ? "4, and --family 6 asks those of IPv6." : "6, which --family 6 asks.")
                else if (ports == nodes) print "all nodes of the input have port 0."
            }' "$input" | while IFS= read -r said; do say "$said"; done
    fi
}
