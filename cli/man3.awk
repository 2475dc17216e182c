# The manual pages of section 3, made of the header's own text: of each function the comment above it and its declaration, and lanyardrove.3 of the
# header's first comment and of the numbers of answers.
#   awk -v folder=build/man3 -f cli/man3.awk include/lanyardrove.h

function plain(line)
{
    gsub(/\\/, "\\e", line)
    gsub(/-/, "\\-", line)
    return line ~ /^[.']/ ? "\\\&" line : line
}

# The comment in lines: indented ones as they are, the others as text; a line that ends a sentence ends a paragraph.
function text(block,    lines, count, i, out, kept, was)
{
    count = split(block, lines, "\n")
    for (i = 1; i <= count; i++) {
        if (lines[i] == "")
            continue
        kept = lines[i] ~ /^    /
        if (kept != was) {
            out = out (kept ? ".nf\n" : ".fi\n")
            was = kept
        }
        out = out plain(lines[i]) "\n"
        if (i < count && !kept && lines[i] ~ /\.$/)
            out = out ".PP\n"
    }
    return out (was ? ".fi\n" : "")
}

function begin_page(name, comment, declaration,    first)
{
    file = folder "/" name ".3"
    first = comment
    gsub(/\n/, " ", first)
    sub(/^Lanyardrove: /, "", first)
    sub(/[.:;].*/, "", first)
    print ".TH " toupper(name) " 3 \"\" \"lanyardrove\" \"Library Functions\"\n.nh" > file
    print ".SH NAME\n" name " \\- " plain(first) > file
    print ".SH SYNOPSIS\n.nf\n#include <lanyardrove.h>\n\n" plain(declaration) "\n.fi" > file
    printf "%s", ".SH DESCRIPTION\n" text(comment) > file
}

function end_page(others)
{
    print ".SH SEE ALSO\n" others ".BR lanyardrove (1)" > file
    close(file)
}

/^\/\*/ { comment = ""; inside = 1 }
inside {
    line = $0
    sub(/^\/\* ?/, "", line)
    sub(/^( \* ?|   )/, "", line)
    if (line ~ /\*?\/$/ && $0 ~ /\*\/$/) {
        sub(/ ?\*?\/$/, "", line)
        inside = 0
    }
    comment = comment (comment == "" ? "" : "\n") line
    next
}
/^#ifndef LANYARDROVE_H/ { about = comment }

# The numbers, each with its comment.
/^enum lanyardrove_ground / { numbering = 1; next }
numbering && /^}/ { numbering = 0 }
numbering {
    line = $0
    if (line ~ /^    LANYARDROVE_/) {
        split(line, parts, /[ =,]+/)
        numbers = numbers ".TP\n.B " parts[3] " " parts[2] "\n"
    }
    sub(/^[^*]*\/\* /, "", line)
    gsub(/^ +| *\*\/$/, "", line)
    numbers = numbers plain(line) "\n"
}

/^uint(32|64)_t lanyardrove_/ { declaration = ""; declaring = 1 }
declaring {
    declaration = declaration (declaration == "" ? "" : "\n") $0
    if ($0 ~ /;$/) {
        declaring = 0
        name = declaration
        sub(/\(.*/, "", name)
        sub(/.* /, "", name)
        begin_page(name, comment, declaration)
        end_page(".BR lanyardrove (3),\n")
        functions = functions ".BR " name " (3),\n"
    }
}

END {
    sub(/^\n/, "", about)
    begin_page("lanyardrove", about, "")
    print ".SH NUMBERS\nThe number of an answer, with the place that it has.\n" numbers > file
    end_page(functions)
}
