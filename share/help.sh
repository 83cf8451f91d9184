# The help of the commands and of the launcher, made of the tables and texts beside this file. ./nolzavirt reads it, and so does
# what makes the manual page.

# The text of the launcher's own words, which has fewer where it is installed.
usage_file() {
    [ -n "$installed" ] && echo "$share/help/installed.txt" || echo "$share/help/launcher.txt"
}

command_table() {
    while IFS='|' read -r name about example; do
        printf '  %-8s%s\n' "$name" "$about"
    done <"$share/commands.txt"
}

status_table() {
    echo '  0    done'
    while IFS='|' read -r status line about; do
        printf '  %-5s%s%s\n' "$status" "${line:+$line: }" "$about"
    done <"$share/statuses.txt"
}

help() {
    cat "$(usage_file)"
    echo
    command_table
    echo
    cat "$share/help/input.txt"
    printf '\nStatus:\n'
    status_table
}

help_command() {
    while IFS='|' read -r name about example; do
        [ "$name" != "$1" ] || printf '%s %s.\n\nExample: %s\n\nOptions, in any order:\n\n' "$name" "$about" "$example"
    done <"$share/commands.txt"
    option_list "$1"
    ! is_among --bind "$(option_words "$1")" ||
        printf '\nHere an IPv6 address to bind may be shortened, as [::1]:6881: the launcher writes it out.\n'
    ! is_among --group "$(option_words "$1")" ||
        printf '\nThe key of a group is better given by the variable NOLZAVIRT_GROUP: others can list command lines.\n'
    echo
    cat "$share/help/$1.txt"
}

option_list() {
    while IFS='|' read -r name kind default of about; do
        is_among "$1" "$of" || continue
        [ "$default" = required ] || default="default: $default"
        printf '  --%-9s %s\n      %s; %s\n' "$name" "$about" "$(kind_words "$kind")" "$default"
    done <"$share/options.txt"
}

# What a status means.
help_status() {
    while IFS='|' read -r status line about; do
        [ "$status" != "$1" ] || printf '%s: %s%s\n' "$status" "${line:+$line: }" "$about"
    done <"$share/statuses.txt"
}

status_words() {
    cut -d '|' -f 1 "$share/statuses.txt" | tr '\n' ' ' | sed 's/ $//'
}

# The help on one of what can be helped with.
help_on() {
    if [ "$1" = network ]; then
        cat "$share/help/network.txt"
    elif is_among "$1" "$(status_words)"; then
        help_status "$1"
    elif is_among "$1" "$(command_words)"; then
        help_command "$1"
    else
        refuse "no command '$1', and no status. The commands are: $(command_words)."
    fi
}

# The version; with --long also what the program was built from, as the file beside it has it.
version() {
    echo "nolzavirt $(cat "$share/version")"
    [ $# -gt 0 ] || return 0
    if [ ! -x "$program" ]; then
        say "the program isn't there, so nothing is known of it: '$me --build' builds it."
        exit "$not_built"
    fi
    is=$(digest_of "$program")
    if [ ! -e "$built" ]; then
        printf 'commit unknown\nkit unknown\nsha256 %s\n' "$is"
        return
    fi
    cat "$built"
    case $is in
        unknown | "$(sed -n 's/^sha256 //p' "$built")") ;;
        *)
            say "the program isn't the one that was built so: its SHA-256 is $is."
            exit "$not_built"
            ;;
    esac
}

# The SHA-256 of a file, where the system has what makes it.
digest_of() {
    digest=$(sha256sum <"$1" 2>/dev/null || shasum -a 256 <"$1" 2>/dev/null) || digest=unknown
    printf '%s' "${digest%% *}"
}
