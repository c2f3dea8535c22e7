# Makes the manual page of the program from pages of this folder: awk -f docs/man.awk docs/STATUS.md docs/PROTOCOL.md
BEGIN {
    print ".TH HIVE 1 \"\" \"\" \"Hive\"\n.nh\n.ad l\n.SH NAME\nhive \\- a Hive engine for the Universal Hive Protocol, and a referee of others"
}

# A line of roff, in which nothing is a request.
function plain(text) {
    gsub(/\\/, "\\e", text)
    gsub(/-/, "\\-", text)
    return text ~ /^[.']/ ? "\\&" text : text
}

# What stands between two marks in bold.
function bold(text, mark, part, count, at, out) {
    count = split(text, part, mark)
    out = part[1]
    for (at = 2; at <= count; at++) out = out (at % 2 ? "\\fR" : "\\fB") part[at]
    return out
}

# The text of each link in its place.
function unlinked(text, link) {
    while (match(text, /\[[^]]*\]\([^)]*\)/)) {
        link = substr(text, RSTART + 1, RLENGTH - 2)
        sub(/\]\(.*/, "", link)
        text = substr(text, 1, RSTART - 1) link substr(text, RSTART + RLENGTH)
    }
    return text
}

function prose(text) {
    return bold(bold(plain(unlinked(text)), "`"), "\\*\\*")
}

{ gsub(/\.\/hive/, "hive") }
/^```/ { in_block = !in_block; print in_block ? ".PP\n.EX" : ".EE"; next }
in_block { print plain($0); next }
/^# / { print ".SH " toupper(substr($0, 3)); next }
/^## / { print ".SS " substr($0, 4); next }
/^\|[-|]+$/ { print ".PP"; next }
/^\| / {
    count = split(substr($0, 3, length($0) - 4), cell, / *\| */)
    print ".TP\n" prose(cell[1])
    text = ""
    for (at = 2; at <= count; at++) if (cell[at] != "") text = text (text ? "; " : "") cell[at]
    print prose(text)
    next
}
/^- / { print ".IP \\(bu 2\n" prose(substr($0, 3)); next }
/^$/ { print ".PP"; next }
{ sub(/^ +/, ""); print prose($0) }
