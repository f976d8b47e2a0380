# Prints dma330.h with its comments in the form that doxygen reads, and without the checks of the layout at its end.

/^\/\* ---- the layout/ {is_layout = 1}
/^#ifdef __cplusplus/ {is_layout = 0}
is_layout {next}

# the head describes the file, and `---- NAME ----` begins a group of calls
NR == 1 {sub(/^\/\* /, "/** @file\n * @brief "); print; next}
/^\/\* ---- / {
    if (is_grouped)
        print "/** @} */"
    is_grouped = 1
    title = $0
    sub(/^\/\* ---- /, "", title)
    sub(/ ----.*/, "", title)
    name = title
    gsub(/[^a-z]/, "_", name)
    print "/** @defgroup " name " " title
    print (/\*\/$/ ? " * @{ */" : " * @{")
    next
}
# a comment above a declaration, and one behind it; a # begins a link unless a backslash is before it
/^\/\* / {sub(/^\/\*/, "/**")}
/[;,{0-9a-z}] +\/\* / {sub(/\/\* /, "/**< ")}
/^ *\/?\*/ {gsub(/#/, "\\#")}
{print}

END {
    if (is_grouped)
        print "/** @} */"
}
