# Prints dma330.h as the manual page dma330(3), and writes a page of each call into a folder:
#
#     awk -v version=1.0.0 -v folder=man3 -f roff.awk -f page.awk dma330.h
#
# It has the comment at the head, the codes with the comment above them, and from the first section on each declaration
# with the comment above it.

# text_of COMMENT: its lines. An empty line and an item of a list begin a paragraph; a line that is indented by four
# spaces, or more, is kept as it is
function text_of(comment, count, lines, number, line, text) {
    count = split(comment, lines, "\n")
    for (number = 1; number <= count; number++) {
        line = lines[number]
        if (line == "")
            line = ".PP"
        else if (line ~ /^    /)
            line = ".br\n" escaped(line)
        else if (sub(/^- /, "", line))
            line = ".IP \\(bu 2\n" escaped(line)
        else if (match(line, /^[0-9]+\. /))
            line = ".IP " substr(line, 1, RLENGTH - 1) " 3\n" escaped(substr(line, RLENGTH + 1))
        else {
            sub(/^ +/, "", line)
            line = escaped(line)
        }
        text = text line "\n"
    }
    return text
}

# beginning COMMENT: its first sentence, or what is before a colon or a semicolon there, without a capital
function beginning(comment) {
    gsub(/\n/, " ", comment)
    match(comment, /[.:;]( |$)/)
    return tolower(substr(comment, 1, 1)) substr(comment, 2, RSTART - 2)
}

# write_page DECLARED COMMENT: writes the page of a call
function write_page(declared, comment, name, file) {
    name = declared
    sub(/\(.*/, "", name)
    sub(/.* /, "", name)
    file = folder "/" name ".3"
    printf "%s.SH SYNOPSIS\n.ad l\n", head(name, 3, "Library calls", beginning(comment)) >file
    printf ".B #include <dma330.h>\n.HP 4\n.B \"%s\"\n", escaped(declared) >file
    printf ".SH DESCRIPTION\n%s", text_of(comment) >file
    print ".SH SEE ALSO\n.BR dma330 (3),\nwhich has the codes, and what all calls have in common." >file
    close(file)
}

# code TEXT: prints a line of an enum, `NAME = NUMBER, /* comment */`
function code(text, name, number) {
    gsub(/[ \n]+/, " ", text)
    name = text
    sub(/ =.*/, "", name)
    number = text
    sub(/^[^=]*= /, "", number)
    sub(/[, ].*/, "", number)
    sub(/^[^*]*\/\* ?/, "", text)
    sub(/ ?\*\/.*/, "", text)
    printf ".TP\n.B %s\n", escaped(name " (" number ")")
    print escaped(name == "DMA330_OK" ? "The call did what it says." : text)
}

BEGIN {
    printf "%s", head("dma330", 3, "Library calls", "a software DMA controller: the ARM DMA-330 (PL330), memory to memory")
    print ".SH SYNOPSIS\n.nf\n.B #include <dma330.h>\n.PP"
    print ".B cc program.c $(pkg\\-config \\-\\-cflags \\-\\-libs dma330)\n.fi"
    print ".SH DESCRIPTION\n.ad l"
}

# a comment at the beginning of a line, its text without the signs around it
/^\/\*/ || in_comment {
    line = $0
    if (sub(/^\/\* ?/, "", line))
        comment = ""
    else {
        sub(/^ \* ?/, "", line)
        comment = comment "\n"
    }
    in_comment = !sub(/ *\*\/$/, "", line)
    comment = comment line
    if (!in_comment && !has_head) {
        printf "%s", text_of(comment)
        has_head = 1
    } else if (!in_comment && comment ~ /^---- /) {
        title = comment
        sub(/^---- /, "", title)
        sub(/ ----.*/, "", title)
        sub(/^[^\n]*\n?\n?/, "", comment)
        is_listed = title !~ /^(names|the layout)/
        if (is_listed) {
            printf ".SH %s\n", toupper(escaped(title))
            printf "%s", text_of(comment)
        }
    }
    next
}

/^enum dma330_code / {in_codes = 1; printf ".SH CODES\n%s", text_of(comment); next}
in_codes && /^}/ {code(entry); in_codes = 0; next}
in_codes && / = / {if (entry != "") code(entry); entry = ""}
in_codes {sub(/^ *(\* )?/, ""); entry = entry " " $0; sub(/^ /, "", entry); next}

is_listed && /^(int32_t|void) dma330_/ {in_declaration = 1; declared = ""}
in_declaration {
    in_declaration = !/;$/
    sub(/ DMA330_NO_NULLS/, "")
    sub(/^ +/, " ")
    declared = declared $0
    if (!in_declaration) {
        printf ".HP 4\n.B \"%s\"\n.RS 4\n.PP\n%s.RE\n", escaped(declared), text_of(comment)
        write_page(declared, comment)
    }
}

END {
    print ".SH SEE ALSO"
    print ".BR dma330 (7),\nthe guide, and the header, which also has the types and numbers."
}
