# An IPv6 address and port with all eight groups of four digits, from one of the forms of RFC 4291, section 2.2, that have hex
# digits only. It fails if the line is none.
NR > 1 || !/^\[[0-9a-fA-F:]+\]:[0-9]+$/ { failed = 1; exit }
{
    port = groups = $0; sub(/.*\]/, "", port); gsub(/^\[|\].*/, "", groups)
    gap = index(groups, "::")
    front = gap ? split(substr(groups, 1, gap - 1), group, ":") : split(groups, group, ":")
    back = gap ? split(substr(groups, gap + 2), after, ":") : 0
    if (gap ? front + back > 7 : front != 8) { failed = 1; exit }
    for (i = 1; i <= 8 - front; i++) group[front + i] = i > 8 - front - back ? after[i - (8 - front - back)] : "0"
    for (i = 1; i <= 8; i++) {
        if (group[i] == "" || length(group[i]) > 4) { failed = 1; exit }
        text = text (i > 1 ? ":" : "") substr("0000" tolower(group[i]), length(group[i]) + 1)
    }
}
END { if (failed) exit 1; print "[" text "]" port }
