# The words of a profile, which stand for options of the commands, by the table profiles.txt beside this file. ./nolzavirt and
# nolzavirt-keep read it.

profile_names() {
    cut -d '|' -f 1 "$share/profiles.txt" | sort -u | tr '\n' ' ' | sed 's/ $//'
}

# The options that a profile has for a command, each with its value on a line.
profile_options() {
    while IFS='|' read -r named name value of about; do
        case "$named: $of " in
            "$1:"*" $2 "*) printf '%s %s\n' "--$name" "$value" ;;
        esac
    done <"$share/profiles.txt"
}
