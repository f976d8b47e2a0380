# Prints documents of docs/ as a manual page, with a section for each if there are several:
#
#     awk -v name=dma330 -v section=1 -v about=.. -v version=1.0.0 -f roff.awk -f document.awk DMA330.md
#
# It reads the parts of Markdown that the documents use: headings, paragraphs, lists, indented code, pictures, and within
# a line `code`, **bold**, *slanted* and [links](..). A paragraph that begins with a command line adds it to the
# synopsis. Of a picture it prints the alternative text, and which file it is.

# code TEXT: a text as it is, also after copy and paste
function code(text) {
    text = escaped(text)
    gsub(/'/, "\\(aq", text)
    gsub(/`/, "\\(ga", text)
    gsub(/\^/, "\\(ha", text)
    gsub(/~/, "\\(ti", text)
    sub(/^\\&\\\(aq/, "\\(aq", text)
    return text
}

# between TEXT MARK FONT: a text in which each second part between two marks has this font
function between(text, mark, font, parts, count, number, found) {
    count = split(text, parts, mark)
    for (number = 1; number <= count; number++)
        found = found (number == 1 ? "" : number % 2 ? "\\fR" : font) parts[number]
    return found
}

# link TEXT TARGET: the text of a link, or the path of a document that it names
function link(text, target) {
    sub(/#.*/, "", target)
    if (text !~ /^[A-Z0-9]+$/ || target !~ /[.]md$/)
        return text
    return sub(/^[.][.]\//, "", target) ? target : "docs/" target
}

# inline TEXT: the text of a paragraph
function inline(text, parts, count, number, middle, found) {
    while (match(text, /\[[^]]*\]\([^)]*\)/)) {
        middle = substr(text, RSTART + 1, RLENGTH - 2)
        count = index(middle, "](")
        middle = link(substr(middle, 1, count - 1), substr(middle, count + 2))
        text = substr(text, 1, RSTART - 1) middle substr(text, RSTART + RLENGTH)
    }
    count = split(text, parts, "`")
    for (number = 1; number <= count; number++)
        if (number % 2 == 0)
            found = found "\\fB" code(parts[number]) "\\fR"
        else
            found = found between(between(escaped(parts[number]), "[*][*]", "\\fB"), "[*]", "\\fI")
    return found
}

# picture TEXT: the text of a paragraph that is a picture
function picture(text, middle) {
    middle = index(text, "](")
    return "(Picture docs/" substr(text, middle + 2, length(text) - middle - 2) ": " substr(text, 3, middle - 3) ")"
}

# put TEXT: adds lines to the page
function put(text) {
    page = page text "\n"
}

# end_paragraph: puts the paragraph or item that was read
function end_paragraph(text) {
    text = paragraph
    paragraph = ""
    if (text == "")
        return
    if (match(text, "^`" name " [^`]*`"))
        synopsis = synopsis ".B " code(substr(text, 2, RLENGTH - 2)) "\n"
    if (text ~ /^!\[/)
        put(".PP\n" inline(picture(text)))
    else if (sub(/^- /, "", text))
        put(".IP \\(bu 2\n" inline(text))
    else if (match(text, /^[0-9]+\. /))
        put(".IP " substr(text, 1, RLENGTH - 1) " 3\n" inline(substr(text, RLENGTH + 1)))
    else
        put(".PP\n" inline(text))
}

# end_code: ends a block of code
function end_code() {
    if (in_code)
        put(".EE\n.RE")
    in_code = 0
}

/^# / && ARGC == 2 {next}
/^#+ / {
    end_paragraph()
    end_code()
    put((/^# / || /^## / && ARGC == 2 ? ".SH " : ".SS ") inline(substr($0, index($0, " ") + 1)))
    next
}
/^$/ {
    end_paragraph()
    blank = "\n"
    next
}
/^    / && paragraph == "" {
    sub(/^    /, "")
    gsub(/\.\/dma330 /, "dma330 ")
    gsub(/\.\/dmasim /, "dmasim ")
    put(in_code ? blank code($0) : ".PP\n.RS 4\n.EX\n" code($0))
    in_code = 1
    blank = ""
    next
}
{
    if (/^- / || /^[0-9]+\. /)
        end_paragraph()
    end_code()
    blank = ""
    sub(/^ +/, "")
    paragraph = paragraph (paragraph == "" ? "" : " ") $0
}

END {
    end_paragraph()
    end_code()
    title = section == 1 ? "User commands" : section == 5 ? "File formats" : "Guides"
    printf "%s", head(name, section, title, about)
    if (synopsis != "")
        printf ".SH SYNOPSIS\n.nf\n%s.fi\n", synopsis
    printf ".SH DESCRIPTION\n.ad l\n%s", page
    print ".SH SEE ALSO\n.BR dmasim (1),\n.BR dmasim (5),\n.BR dma330 (1),\n.BR dma330 (3),\n.BR dma330 (5),\n.BR dma330 (7)\n.PP"
    print "The documents, and the examples that they name, are in"
    print ".IR share/dma330 ,\nbeside\n.IR share/man ,\nwhich has this page."
}
