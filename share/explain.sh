# What ./nolzavirt says before a run that a person can't see, and what a status means behind it.

# The value of an option among a command's words.
value_of() {
    option=--$1
    shift 2
    while [ $# -gt 1 ]; do
        if [ "$1" = "$option" ]; then
            printf '%s' "$2"
            return
        fi
        shift 2
    done
}

# Says how many lookups a node makes, if its input is a file that can be read twice, and how it ends.
say_how_it_ends() {
    kinds="'find', 'peers', 'announce', 'get' or 'put'"
    lookups="a lookup for each line $kinds of its input, at most 16, all at the same time"
    if [ -f /dev/stdin ]; then
        amount=$(LC_ALL=C grep -cE '^(find|peers|announce|get|put) ' /dev/stdin)
        case $amount in
            0) lookups="no lookup, since its input has no line $kinds" ;;
            1) lookups='one lookup' ;;
            [2-9] | 1[0-6]) lookups="$amount lookups at the same time" ;;
        esac
    fi
    receives=$(value_of receives "$@")
    say "makes $lookups, and answers queries meanwhile."
    minutes=$(value_of minutes "$@")
    case ${receives:-0}:${minutes:-0} in
        0:*) say "ends once all lookups are over, and prints what each found. With --receives it answers on." ;;
        *:0) say "ends once all lookups are over and its receive calls number $receives, and prints what each lookup found." ;;
        *) say "ends once all lookups are over and its receive calls number $receives or $minutes minutes are over, and prints" \
            "what each lookup found." ;;
    esac
}

# Says what a person can't see: that the input is read from the terminal, where a node answers, and how it ends.
say_what_comes() {
    if [ -t 0 ] && ! is_among "$1" 'mint sim'; then
        if [ -n "$unproved" ]; then
            say "with --unproved nothing is read from a terminal: the input is empty. Name a file by <FILE."
        else
            [ "$1" = refresh ] && what='a saved table' || what='nodes, one a line,'
            say "reads $what from this terminal; Ctrl-D on an empty line ends it."
        fi
    fi
    is_among "$1" 'serve node' || return 0
    address=$(value_of bind "$@")
    case $address in
        '['*) say "binds $address, and answers nobody there: $1 answers queries from IPv4 addresses only." ;;
        '' | *:0) say "the system chooses the port at which it answers; --bind a.b.c.d:port names one." ;;
        *) say "answers at $address if that can be bound, once its input has ended; Ctrl-C ends it, with status 130." ;;
    esac
    [ "$1" != node ] || say_how_it_ends "$@"
}

# Why no socket could be bound, as far as it can be seen from here.
why_no_socket() {
    address=$(value_of bind "$@")
    port=${address##*:}
    if ! (exec 3<&0) 2>/dev/null; then
        say "standard input is closed, and the socket would take its place: give </dev/null."
    elif [ -n "$address" ] && sed 's/^ *//' /proc/net/udp /proc/net/udp6 2>/dev/null | cut -d ' ' -f 2 |
        grep -q ":$(printf '%04X' "$port")\$"; then
        say "port $port is taken by another program: 'ss -ulnp' lists them. Choose another by --bind."
    elif [ -n "$address" ] && [ "$port" -gt 0 ] && [ "$port" -lt 1024 ] && [ "$(id -u)" -ne 0 ]; then
        say "only root may bind ports below 1024: choose another by --bind."
    elif [ -n "$address" ]; then
        say "${address%:*} may be no address of this machine ('ip address' lists them), or its network is switched off."
    else
        say "this machine has no network of the family that was asked for, or no socket is left."
    fi
}

# Says what a status means, and what to do.
explain() {
    status=$1
    shift
    case $status in
        3)
            explain_bad_line "$1"
            if [ "$1" = refresh ]; then
                say "the input isn't what 'table' or 'refresh' prints: that line can't stand there, or the text ends before it."
                return
            fi
            say "a line of the input is empty, begins with '#', or has 40 hex digits, a space, and a.b.c.d:port or"
            say "[h:h:h:h:h:h:h:h]:port, and then may have a space and a key and X. Each h is four hex digits: a shortened address"
            say "as [::1]:6881 has to be written out, as $(written_out '[::1]:6881')."
            [ "$1" != node ] || say "At most 16 lines may be others: 'find', 'peers' or 'get', a space and 40 hex digits;" \
                "'announce KEY PORT'; or 'put' and a value in hex."
            ;;
        8)
            explain_no_seeds "$@"
            help_status 8 | sed 's/^8: no seeds: /nolzavirt: /' >&2
            ;;
        12)
            say "a value is one of bencode in its written form, in hex: of at most 1,000 bytes, nested at most 14 deep, keys in"
            say "order, nothing after it. A text of N bytes is N:text, as 353a68656c6c6f is 5:hello."
            ;;
        13)
            say "each line of the saved table can be read, but together they are no table: a node may be live twice, or in a"
            say "row that isn't its own, or siblings are in another order. Something else than 'table' and 'refresh' wrote it."
            ;;
        14) why_no_socket "$@" ;;
        *) sed -n "s/^$status|[^|]*|/nolzavirt: /p" "$share/statuses.txt" >&2 ;;
    esac
}
