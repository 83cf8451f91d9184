# What is wrong with a line of an input, and how it reads: given its bytes as numbers, prints it with all that can't be seen
# written out, and on the next line, if it is a usual mistake, which. With -v seek=1 it is given an input of nodes, and of jobs if
# the command is `node`, and prints the number of the first line that is none, but for values that aren't bencode.
#
#     -v command=NAME      the command that refused it
#     -v jobs=N            how many jobs of `node` the input has, up to this line
#     -v total=N           the bytes of the line, of which the first may do here
#     -v is_end=1          the input ends before it
#     -v contacts=SCRIPT   what prints lines of nodes of which only the name is known
#     -v me=LAUNCHER       how the launcher is called

seek {
    line = $0
    sub(/\r$/, "", line)
    words = split(line, word, " ")
    if (!is_good()) { print NR; exit }
    next
}

{ for (i = 1; i <= NF; i++) byte[++bytes] = $i }

END {
    if (seek) exit
    if (bytes && byte[bytes] == 10) bytes--
    read()
    print shown()
    said = is_end ? "the input ends before it: a saved table ends with the line 'end', so this one was cut" : mistake()
    if (said) print said
}

# The line as a text, in which a byte that is no printable character is a control character; and its words.
function read(i, of_line) {
    of_line = bytes
    if (command != "refresh" && byte[of_line] == 13) of_line--
    for (i = 1; i <= of_line; i++) line = line (byte[i] >= 32 && byte[i] < 127 ? sprintf("%c", byte[i]) : byte[i] == 9 ? "\t" : "\001")
    words = split(line, word, " ")
}

function shown(i, text) {
    for (i = 1; i <= bytes && i <= 80; i++) text = text visible(byte[i])
    return text (total > 80 ? " .. (" total " bytes)" : "")
}

function visible(code) {
    if (code == 92) return "\\\\"
    if (code == 9) return "\\t"
    if (code == 13) return "\\r"
    return code >= 32 && code < 127 ? sprintf("%c", code) : sprintf("\\x%02x", code)
}

function begins(first, second, third) {
    return byte[1] == first && byte[2] == second && (third == "" || byte[3] == third)
}

function has(code, i) {
    for (i = 1; i <= bytes; i++) if (byte[i] == code) return i
    return 0
}

function is_hex(text, digits) { return (digits == "" || length(text) == digits) && text ~ /^[0-9a-fA-F]+$/ }
function is_number(text, most) { return text ~ /^[0-9]+$/ && text !~ /^0./ && length(text) < 6 && text + 0 <= most }
function is_id(text) { return is_hex(text, 40) }
function is_job(text) { return text ~ /^(find|peers|announce|get|put)$/ }

# What the address is, once its port is taken away.
function host_of(text) { sub(/:[^:]*$/, "", text); return text }
function port_of(text) { sub(/.*:/, "", text); return text }
function is_four(text, part, i) {
    if (split(text, part, ".") != 4) return 0
    for (i = 1; i <= 4; i++) if (!is_number(part[i], 255)) return 0
    return 1
}
function is_eight(text, part, i) {
    if (text !~ /^\[.*\]$/ || split(substr(text, 2, length(text) - 2), part, ":") != 8) return 0
    for (i = 1; i <= 8; i++) if (!is_hex(part[i], 4)) return 0
    return 1
}
function is_address(text) { return text ~ /:/ && is_number(port_of(text), 65535) && (is_four(host_of(text)) || is_eight(host_of(text))) }
function is_node() { return is_id(word[1]) && is_address(word[2]) && (words == 2 || words == 4) }
function is_good(text, i) {
    for (i = 1; i <= words; i++) text = text (i > 1 ? " " : "") word[i]
    if (line ~ /^#/ || line == "") return 1
    if (text != line) return 0
    if (command == "node" && is_job(word[1])) { jobs++; return jobs <= 16 && of_job() == "" }
    return is_node() && (words == 2 || of_proof() == "")
}
function is_name(text) { return text ~ /^[A-Za-z0-9][A-Za-z0-9.-]*$/ && text ~ /[A-Za-z]/ }

# ----------------------------------------------------------------------------------------------------------- the mistakes

function mistake(said) {
    said = of_bytes()
    if (!said) said = of_spaces()
    if (!said && command == "refresh") return of_table()
    if (!said) said = of_other_line()
    if (!said && is_job(word[1])) return of_job()
    return said ? said : of_node()
}

function of_bytes() {
    if (begins(239, 187, 191)) return "it begins with a byte order mark (BOM), which an editor put there: save the file without it"
    if (begins(255, 254) || begins(254, 255)) return "it is of UTF-16: save the file as UTF-8 or ASCII, without a byte order mark"
    if (begins(31, 139)) return "it is compressed: hand on what gunzip makes of it"
    if (has(0)) return "it has a byte 0: the file is no text, or one of UTF-16, which has to be saved as ASCII"
    if (has(9)) return "it has a tab at place " has(9) ": one space has to stand there"
    if (has(27)) return "it has an escape character, as of colours of a terminal"
    if (has(13)) return of_return()
    return line ~ /\001/ ? of_sign() : ""
}

function of_return() {
    if (has(13) == bytes) return "it ends with a carriage return, and the lines of a saved table end with a line feed alone"
    if (has(13) == bytes - 1) return "it ends with two carriage returns: one may stand there"
    return "it has a carriage return at place " has(13) ": lines end with a line feed"
}

# A character that isn't ASCII, or another one that can't be seen.
function of_sign(i) {
    for (i = 1; byte[i] >= 32 && byte[i] < 127; i++) continue
    if (byte[i] < 128) return "it has a control character at place " i
    if (byte[i] == 194 && byte[i + 1] == 160) return "it has a no-break space at place " i ": a plain space has to stand there"
    if (byte[i] == 226 && byte[i + 1] == 128 && byte[i + 2] == 139) return "it has a space without width at place " i
    if (byte[i] == 226 && byte[i + 1] == 128) return "it has a typographic quote or dash at place " i
    return "it has a character at place " i " that isn't ASCII"
}

function of_spaces() {
    if (line ~ /^ *$/) return line == "" ? "" : "it has spaces only: leave it empty or out"
    if (line ~ /^ /) return "it begins with a space"
    if (line ~ / $/) return "it ends with a space"
    if (line ~ /  /) return "it has two spaces where one has to stand"
    return ""
}

# A line of something else that a person has at hand.
function of_other_line() {
    if (word[1] ~ /^(table|row|live|spare|sibling|end)$/ && words <= 4)
        return "it is a line of a saved table, which 'refresh' reads. Its live nodes are lines of nodes:" \
            " awk '$1 == \"live\" { print $2, $3 }' FILE"
    if (line ~ /^(found|peers|passed|received) [0-9]+ / || line == "none" || line == "pass" || line == "fail" || line ~ /^(value|key) [0-9a-fA-F]+$/)
        return "it is a line that a command prints beside its nodes: leave it out"
    if (command != "node" && is_job(word[1]) && words > 1) return "it is a job, which only 'node' takes"
    if (line ~ /^magnet:/) return "it is a magnet link. Its key is what stands behind 'btih:', and '--key' of 'peers' takes it in hex"
    if (line ~ /^[a-z]+:\/\//) return "it is a URL, and no line of a node"
    if (line ~ /^(\/\/|;|--)/) return "a comment begins with '#'"
    if (line ~ /^[{["']/ && line !~ /^\[[0-9a-fA-F:.]*\]:/) return "it has quotes or brackets: a line has bare words"
    return ""
}

# What is wrong with a count of hex digits, or with one of them.
function of_hex(text, digits, what) {
    if (text ~ /^0[xX]/) return what " begins with '0x', which has to be left out"
    if (is_hex(text)) return length(text) == digits ? "" : what " has " length(text) " hex digits, and " digits " have to be there"
    if (length(text) == digits && match(text, /[^0-9a-fA-F]/)) return what " has '" substr(text, RSTART, 1) "' at place " RSTART ", which is no hex digit"
    return what " isn't " digits " hex digits"
}

function of_port(text) {
    if (text == "") return "its port is missing behind the colon"
    if (text !~ /^[0-9]+$/) return "its port '" text "' is no number"
    if (text ~ /^0./) return "its port has leading zeros"
    return is_number(text, 65535) ? "" : "its port " text " is out of range: 65535 is the highest"
}

# ------------------------------------------------------------------------------------------------------------ lines of nodes

function of_node(said) {
    said = of_first_word()
    if (!said && words > 1) said = of_address(word[2])
    if (!said && words == 2) return ""
    return said ? said : of_proof()
}

function of_first_word() {
    if (words == 1 && is_address(word[1])) return "it has no identifier before the address. '" contacts " HOST:PORT' asks for it, and prints the line"
    if (words == 1 && line ~ /:[0-9]+$/ && is_name(host_of(line)) && !is_id(host_of(line)))
        return "it is HOST:PORT, and a line of a node has an identifier and an address: '" contacts " " line "' prints such lines"
    if (words == 1 && is_id(word[1])) return "it has no address behind the identifier"
    if (command == "node" && word[1] ~ /^[A-Za-z_-]+$/ && !is_hex(word[1]))
        return "'" word[1] "' is no kind of job: those are find, peers, announce, get and put"
    if (words > 1 && is_id(word[2]) && word[1] ~ /[.:]/) return "the identifier has to stand before the address"
    if (words > 1 && is_id(word[2])) return "'" word[1] "' stands before the identifier: leave it out"
    if (is_id(substr(word[1], 1, 40)) && substr(word[1], 41) ~ /^[^0-9a-zA-Z]/)
        return "'" substr(word[1], 41, 1) "' stands behind the identifier, where a space has to stand"
    if (length(word[1]) == 32 && word[1] ~ /^[A-Za-z2-7]+$/) return "its identifier has 32 letters, as those of base32: 40 hex digits have to be there"
    return of_hex(word[1], 40, "its identifier")
}

function of_address(text) {
    if (is_address(text)) return ""
    if (words > 2 && text !~ /:/ && word[3] ~ /^[0-9]+$/ && length(word[3]) < 6) return "a colon has to stand between address and port"
    if (words == 3 && is_hex(text, 64) && is_id(word[3])) return "it is what 'mint' prints: an address has to stand behind the identifier"
    if (text ~ /\//) return "its address has a '/': it has to be a.b.c.d:port"
    if (text ~ /^[^\[].*:.*:/ && text !~ /\./) return "an IPv6 address has to stand in brackets, with its port behind them, as [::1]:6881 written out"
    if (text ~ /^\[/) return of_six(text)
    if (text !~ /:/) return is_four(text) ? "its port is missing: a.b.c.d:port has to be there" : is_name(text) ? name_of(text) : "its address isn't a.b.c.d:port"
    if (!is_four(host_of(text)) && is_name(host_of(text))) return name_of(host_of(text))
    return of_four(host_of(text), port_of(text))
}

function name_of(text) {
    return "'" text "' is a name, and an address has to stand there: '" contacts " HOST:PORT' asks a host, and prints its line"
}

function of_four(host, port, part, parts, i) {
    parts = split(host, part, ".")
    if (parts != 4) return "its address has " parts " numbers, and four have to be there: a.b.c.d:port"
    for (i = 1; i <= 4; i++) {
        if (part[i] ~ /^0[0-9]+$/) return "its address has leading zeros in '" part[i] "'"
        if (!is_number(part[i], 255)) return "its address has '" part[i] "' where a number from 0 to 255 has to stand"
    }
    return of_port(port)
}

function of_six(text) {
    if (text !~ /\]/) return "its IPv6 address has no closing bracket"
    if (text !~ /\]:/) return "its port is missing behind the bracket"
    if (text ~ /%/) return "its IPv6 address has a zone ('%'), and nobody else knows that one"
    if (text ~ /\..*\]/) return "its IPv6 address has dots: all eight groups have to be four hex digits"
    if (!is_eight(host_of(text))) return "its IPv6 address is shortened, and has to be written out" (full ? ": " full : "")
    return of_port(port_of(text))
}

function of_proof(pair) {
    if (words > 2 && word[3] ~ /^#/) return "a comment has to be a line of its own"
    if (words == 3 && split(word[3], pair, ",") == 2 && is_hex(pair[1], 64)) return "a space, and no comma, has to stand between key and X"
    if (words == 3 && is_hex(word[3], 64)) return "it has a key without an X: both or none have to be there"
    if (words == 3) return "it has three words: a node has two, or four with key and X"
    if (words > 4) return "it has " words " words: a node has two, or four with key and X"
    pair[1] = of_hex(word[3], 64, "its key")
    return pair[1] ? pair[1] : of_hex(word[4], 40, "its X")
}

# ------------------------------------------------------------------------------------------------------------- lines of jobs

function of_job(said) {
    if (word[1] == "put") return of_put()
    if (words == 1) return "'" word[1] "' has no " (word[1] == "find" ? "identifier" : "key") " behind it"
    said = of_hex(word[2], 40, word[1] == "find" ? "its identifier" : "its key")
    if (said) return said
    if (word[1] != "announce") return words > 2 ? "'" word[1] "' takes one word, and '" word[3] "' is one more" : of_many()
    if (words == 2) return "'announce' has no port behind its key"
    said = of_port(word[3])
    return said ? said : words > 3 ? "'announce' takes two words, and '" word[4] "' is one more" : of_many()
}

function of_put() {
    if (words == 1) return "'put' has no value behind it"
    if (word[2] ~ /^([0-9]+:|i-?[0-9]+e$)/) return "its value is written as it is, and has to be in hex: 5:hello is 353a68656c6c6f"
    if (words > 2) return "'put' takes one word, and '" word[3] "' is one more"
    if (word[2] ~ /^0[xX]/) return "its value begins with '0x', which has to be left out"
    if (!is_hex(word[2])) return "its value is no hex: 5:hello is 353a68656c6c6f"
    if (length(word[2]) % 2) return "its value has " length(word[2]) " hex digits, and their number has to be even"
    if (length(word[2]) > 2000) return "its value has " length(word[2]) / 2 " bytes, and 1,000 are the most"
    if (seek) return ""
    return jobs > 16 ? of_many() : "its value isn't bencode in its written form: 5:hello, for instance, is 353a68656c6c6f"
}

function of_many() {
    return jobs > 16 ? "it is the 17th job, and 16 are the most: give the others to a second 'node', or to commands of their own" : ""
}

# ----------------------------------------------------------------------------------------------------- lines of a saved table

function of_table() {
    if (is_node()) return "it is a line of nodes, and 'refresh' reads what 'table' or 'refresh' printed: '" me " table <FILE' makes that"
    if (line == "") return "it is empty, which no line of a saved table is"
    if (line ~ /^#/) return "a saved table has no comments"
    if (is_job(word[1])) return "it is a job, which only 'node' takes"
    if (line ~ /^(found|received|passed) [0-9]+ /) return "it is a line of counts: a saved table begins with 'table' and ends with 'end'"
    if (word[1] == "table") return of_table_head()
    if (word[1] ~ /^(live|spare|sibling)$/) return of_entry()
    if (word[1] !~ /^(row|end)$/) return "no line of a saved table begins with '" word[1] "': those are table, row, live, spare, sibling and end"
    return ""
}

function of_table_head(said) {
    if (words != 4) return "it has " words " words, and four have to be there: table, an identifier, and two numbers"
    said = of_hex(word[2], 40, "its identifier")
    return said
}

function of_entry(said, wanted) {
    wanted = word[1] == "live" ? 4 : 3
    said = of_hex(word[2], 40, "its identifier")
    if (!said && words > 2) said = is_address(word[3]) ? "" : of_entry_address(word[3])
    if (said || words == wanted) return said
    return "it has " words " words, and '" word[1] "' has " wanted (wanted == 4 ? ": an identifier, an address, and how often it failed" : ": an identifier and an address")
}

function of_entry_address(text) {
    if (is_name(host_of(text)) && !is_four(host_of(text))) return name_of(host_of(text))
    return text ~ /^\[/ ? "its address is of IPv6, and a table has nodes of IPv4" : of_four(host_of(text), port_of(text))
}
