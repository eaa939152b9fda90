# Writes the man pages of the library from the comments of its header, to a folder that exists:
#   awk -v version=0.3.0 -v folder=man3 -f docs/swimtab.3.awk include/swimtab.h
# swimtab.3 has what is said of all calls, and the types. Each group of calls has a page of its own, swimtab-GROUP.3,
# to which the pages of its calls lead. A comment tells of the declarations that follow it, up to the next comment.

# out prints to the page that is being written.
function out(text) {
    print text > page
}

# shown is a line as troff prints it.
function shown(line) {
    gsub(/\\/, "\\e", line)
    gsub(/-/, "\\-", line)
    sub(/^[.']/, "\\\\\\&&", line)
    return line
}

# tell prints the paragraphs and lists of a comment.
function tell(text, lines, count, i) {
    count = split(text, lines, "\n")
    for (i = 1; i <= count; i++) {
        if (lines[i] == "") {
            if (i < count && lines[i + 1] !~ /^(- |    )/)
                out(".PP")
        } else if (lines[i] ~ /^- /)
            out(".IP \\(bu 2\n" shown(substr(lines[i], 3)))
        else if (lines[i] ~ /^    /)
            out((lines[i - 1] == "" ? ".PP\n" : "") ".nf\n" shown(lines[i]) "\n.fi")
        else {
            sub(/^ +/, "", lines[i])
            if (lines[i] != "")
                out(shown(lines[i]))
        }
    }
}

# flush prints what was gathered: the heading, the declarations and the comment that tells of them.
function flush() {
    if (code != "" && names != "") {
        out(".SS " names "\n.nf\n" code ".fi")
        if (text != "")
            out(".PP")
    } else if (code != "" && text != "" && !heads)
        out(".PP")
    if (text != "")
        tell(text)
    if (code != "" && names == "")
        out(".PP\n.nf\n" code ".fi")
    if (code != "")
        heads = 0
    code = names = text = ""
}

# declare adds a line to the declarations.
function declare(line) {
    code = code shown(line) "\n"
}

# start begins a page.
function start(name, what, title) {
    page = folder "/" name ".3"
    title = toupper(name)
    out(".TH " shown(title) " 3 \"\" \"swimtab " version "\" \"Library Functions\"")
    out(".SH NAME\n" shown(name) " \\- " what "\n.SH SYNOPSIS\n.B #include <swimtab.h>\n.PP")
    out(".B cc \\-o program program.c $(pkg\\-config \\-\\-cflags \\-\\-libs swimtab)\n.SH DESCRIPTION")
}

NR == 1 { start("swimtab", "the membership table of a SWIM cluster") }

/^\/\* -+ / {
    flush()
    sub(/^\/\* -+ /, "")
    sub(/ \*\/$/, "")
    split($0, title, ": ")
    if (groups++)
        out(".SH SEE ALSO\n.BR swimtab (3)")
    listed_groups = listed_groups ".TP\n.BR swimtab\\-" title[1] " (3)\n" title[2] "\n"
    start("swimtab-" title[1], title[2])
    group = title[1]
    next
}

/^\/\*/ { flush(); inside = 1 }

inside {
    ended = /\*\/$/
    line = $0
    sub(/ *\*\/$/, "", line)
    sub(/^(\/\*| \*)/, "", line)
    sub(/^ /, "", line)
    text = text (text == "" ? "" : "\n") line
    if (ended) {
        inside = 0
        if (!described) {
            tell(text)
            out(".SH TYPES AND CONSTANTS")
            described = heads = 1
            text = ""
        }
    }
    next
}

/^(typedef )?(struct|enum)|^#define SWIMTAB_[A-Z_]* / { listed = 1 }
listed {
    declare($0)
    listed = /^(typedef )?(struct|enum)/ ? !/};$/ : listed && !/^}/ && !/^#define/
    next
}

/^[a-z].*swimtab_[a-z_]*\(/ {
    match($0, /swimtab_[a-z_]*\(/)
    name = substr($0, RSTART, RLENGTH - 1)
    names = names (names == "" ? "" : ", ") name
    print ".so man3/swimtab" (group == "" ? "" : "-" group) ".3" > (folder "/" name ".3")
    close(folder "/" name ".3")
    within = 1
}
within {
    declare($0)
    within = !/;$/
}

END {
    flush()
    out(".SH SEE ALSO\n.BR swimtab (3)")
    page = folder "/swimtab.3"
    printf ".SH CALLS\n%s", listed_groups > page
    out(".SH SEE ALSO\n.BR swimtab (1),\n.BR swimunwrap (1),\n.BR swimwatch (1)")
    out(".PP\n.I share/doc/swimtab/EMBEDDING.md\nis the guide.")
}
