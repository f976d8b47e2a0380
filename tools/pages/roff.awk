# What page.awk and document.awk share.

# escaped TEXT: a text as roff reads it
function escaped(text) {
    gsub(/\\/, "\\e", text)
    gsub(/-/, "\\-", text)
    if (text ~ /^[.']/)
        text = "\\&" text
    return text
}

# head NAME SECTION TITLE ABOUT: the head of a page, without hyphens at the ends of lines
function head(name, section, title, about) {
    return ".nr HY 0\n.TH " name " " section " \"\" \"dilkwafam " version "\" \"" title "\"\n" \
        ".SH NAME\n" name " \\- " escaped(about) "\n"
}
