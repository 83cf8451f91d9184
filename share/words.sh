# Which words the program takes, by the tables beside this file, and what is wrong with others. ./nolzavirt reads it.

# Whether a word is among some.
is_among() {
    case $1 in
        '' | *' '*) return 1 ;;
    esac
    case " $2 " in
        *" $1 "*) return 0 ;;
    esac
    return 1
}

command_words() {
    cut -d '|' -f 1 "$share/commands.txt" | tr '\n' ' ' | sed 's/ $//'
}

# The options of a command, as words.
option_words() {
    words=
    while IFS='|' read -r name kind default of about; do
        ! is_among "$1" "$of" || words="${words:+$words }--$name"
    done <"$share/options.txt"
    printf '%s' "$words"
}

# What a value is, in words.
kind_words() {
    case $1 in
        id) echo '40 hex digits' ;;
        bytes) echo '64 hex digits' ;;
        proof) echo '64 hex digits, a comma and 40 hex digits' ;;
        hex) echo 'an even number of hex digits, at least two' ;;
        version) echo '4 or 6' ;;
        yesno) echo 'yes or no' ;;
        claim) echo 'named or asked' ;;
        address) echo 'an address and port, a.b.c.d:port or [h:h:h:h:h:h:h:h]:port, each h four hex digits' ;;
        *) echo "a number from ${1%-*} to ${1#*-}, without leading zeros" ;;
    esac
}

# Whether a text is a number within two bounds, without leading zeros.
is_number() {
    case $1 in
        '' | *[!0-9]* | 0?*) return 1 ;;
    esac
    [ ${#1} -le 10 ] && [ "$1" -ge "$2" ] && [ "$1" -le "$3" ]
}

is_hex() {
    case $1 in
        '' | *[!0-9a-fA-F]*) return 1 ;;
    esac
    [ ${#1} -eq "$2" ]
}

is_address() {
    case $1 in
        '['*)
            [ "$(written_out "$1")" = "$(printf '%s' "$1" | tr A-F a-f)" ] && is_number "${1##*:}" 0 65535
            return
            ;;
    esac
    rest=$1.
    for _ in 1 2 3; do
        is_number "${rest%%.*}" 0 255 || return 1
        rest=${rest#*.}
    done
    rest=${rest%.}
    is_number "${rest%%:*}" 0 255 && is_number "${rest#*:}" 0 65535 && [ "$rest" != "${rest#*:}" ]
}

# An IPv6 address with all its digits.
written_out() {
    printf '%s\n' "$1" | LC_ALL=C awk -f "$share/address.awk"
}

is_value() {
    case $1 in
        version) [ "$2" = 4 ] || [ "$2" = 6 ] ;;
        yesno) [ "$2" = yes ] || [ "$2" = no ] ;;
        claim) [ "$2" = named ] || [ "$2" = asked ] ;;
        id) is_hex "$2" 40 ;;
        bytes) is_hex "$2" 64 ;;
        proof) is_hex "${2%%,*}" 64 && is_hex "${2#*,}" 40 ;;
        hex) is_hex "$2" $((${#2} / 2 * 2)) ;;
        address) is_address "$2" ;;
        *) is_number "$2" "${1%-*}" "${1#*-}" ;;
    esac
}

# Finds an option of a command by its word: sets its kind, and otherwise the commands that have it.
find_option() {
    kind=
    owners=
    while IFS='|' read -r name is default of about; do
        [ "--$name" = "$2" ] || continue
        owners="$owners $of"
        ! is_among "$1" "$of" || kind=$is
    done <"$share/options.txt"
    [ -n "$kind" ]
}

# A word that was given, to be shown. A group's key, or what was to be one, is shown to nobody.
shown() {
    case $1 in
        --group=*) printf '%s' '--group=(not shown)' ;;
        *) printf '%s' "$1" ;;
    esac
}

shown_value() {
    [ "$1" = --group ] && printf '(not shown)' || printf '%s' "$2"
}

# Says what is wrong with the words, or with the group's key in the environment, and what would do; nothing if they are right.
wrong_words() {
    if ! is_among "$1" "$(command_words)"; then
        echo "no command '$1'. The commands are: $(command_words). This script's own words are: $own_words."
        return
    fi
    command=$1
    shift
    given=
    while [ $# -gt 0 ]; do
        if ! find_option "$command" "$1"; then
            option=${1%%=*}
            if [ "$option" != "$1" ] && find_option "$command" "$option"; then
                value=$(shown_value "$option" "${1#*=}")
                echo "'$option=$value': write it as two words, '$option $value'."
            elif [ -n "$owners" ]; then
                echo "'$command' has no option '$(shown "$1")'. It belongs to:$owners."
            else
                echo "no option '$(shown "$1")'. Those of '$command' are: $(option_words "$command")."
            fi
            return
        fi
        problem=
        if is_among "$1" "$given"; then
            problem="'$1' is given twice."
        elif [ $# -eq 1 ]; then
            problem="'$1' has no value. It takes $(kind_words "$kind")."
        elif ! is_value "$kind" "$2"; then
            problem="'$1' can't be '$(shown_value "$1" "$2")'. It takes $(kind_words "$kind")."
        fi
        if [ -n "$problem" ]; then
            printf '%s\n' "$problem"
            return
        fi
        given="$given $1"
        shift 2
    done
    if [ -n "${NOLZAVIRT_GROUP-}" ] && find_option "$command" --group && ! is_among --group "$given" &&
        ! is_value "$kind" "$NOLZAVIRT_GROUP"; then
        echo "the variable NOLZAVIRT_GROUP can't be '(not shown)'. It takes $(kind_words "$kind")."
        return
    fi
    while IFS='|' read -r name kind default of about; do
        if [ "$default" = required ] && is_among "$command" "$of" && ! is_among "--$name" "$given"; then
            echo "'--$name' has to be given: $about, $(kind_words "$kind")."
        fi
    done <"$share/options.txt"
}
