# Reads headers, and writes a C program that prints the lines of `list`.

{
    text = text $0 "\n"
}

$1 == "#undef" {
    undefined[$2]
}

# without_comments(s): returns a text of C in which each comment is a space
function without_comments(s,  kept, at) {
    while ((at = index(s, "/*")) > 0) {
        kept = kept substr(s, 1, at - 1) " "
        s = substr(s, at + 2)
        s = substr(s, index(s, "*/") + 2)
    }
    return kept s
}

# tidy(s): returns a text with one space for each run of spaces, and none at its ends
function tidy(s) {
    gsub(/[ \t\n]+/, " ", s)
    gsub(/^ | $/, "", s)
    return s
}

# without_name(s): returns the type of a parameter or a member, without the name at its end
function without_name(s) {
    if (s ~ /[ *]/)
        sub(/[A-Za-z0-9_]+$/, "", s)
    return tidy(s)
}

function print_text(line) {
    gsub(/"/, "\\\"", line)
    print "    puts(\"" line "\");"
}

# print_macro(name, parameters): prints a macro's value, or its values if it is the bytes of an instruction
function print_macro(name, parameters,  many, n, call) {
    many = split(parameters, unused, ",")
    for (n = 1; n <= many; n++)
        call = call (n > 1 ? ", " : "") n
    call = name (many ? "(" call ")" : "")
    printf "    {\n        static const long long values[] = {%s};\n", call
    printf "        printf(\"macro %s: %%d bytes,%%s\", (int)sizeof(%s), ", call, call
    printf "(%s) * 0 - 1 > 0 ? \" unsigned,\" : \"\");\n", call
    print "        print(values, sizeof values / sizeof *values);\n    }"
    # (which the compiler refuses if the preprocessor can't compute it)
    if (!many)
        print "#if " name " == 0\n#endif"
}

# define(line): lists what a #define without the word #define defines
function define(line,  name, parameters, body) {
    match(line, /^[A-Z0-9_]+/)
    name = substr(line, 1, RLENGTH)
    body = substr(line, RLENGTH + 1)
    if (body ~ /^\(/) {
        match(body, /^\([^)]*\)/)
        parameters = substr(body, 2, RLENGTH - 2)
        body = substr(body, RLENGTH + 1)
    }
    body = tidy(body)
    if (body ~ /^\{/)
        print_text("text " name ": " body)
    else if (body != "" && body !~ /^(case|static|__attribute__)/ && name !~ /^DMA330_VERSION/ && !(name in undefined))
        print_macro(name, parameters)
}

# enumerate(s): lists the enumerators between the braces of an enum
function enumerate(s,  many, n, name) {
    sub(/^[^{]*\{/, "", s)
    many = split(s, each, ",")
    for (n = 1; n <= many; n++) {
        name = tidy(each[n])
        sub(/[ =}].*/, "", name)
        printf "    printf(\"number %s: %%ld\\n\", (long)%s);\n", name, name
    }
}

# structure(s): lists a struct, where it lies after a char, and its members
function structure(s,  name, many, n, member) {
    match(s, /struct [a-z0-9_]+/)
    name = substr(s, RSTART + 7, RLENGTH - 7)
    printf "    {\n        struct after {char first; %s second;};\n", name
    printf "        printf(\"struct %s: %%d bytes, aligned to %%d\\n\", (int)sizeof(%s), ", name, name
    print "(int)offsetof(struct after, second));\n    }"
    sub(/^[^{]*\{/, "", s)
    sub(/\}.*/, "", s)
    many = split(s, each, ";")
    for (n = 1; n < many; n++) {
        match(each[n], /[a-z0-9_]+$/)
        member = substr(each[n], RSTART)
        printf "    printf(\"member %s.%s: %s at %%d, %%d bytes\\n\", ", name, member, without_name(tidy(each[n]))
        printf "(int)offsetof(%s, %s), (int)sizeof(((%s *)0)->%s));\n", name, member, name, member
    }
}

# prototype(kind, s): lists a call by the types of its parameters and its result, and by what follows them
function prototype(kind, s,  name, result, many, n, types, rest) {
    match(s, /dma330_[a-z0-9_]+\(/)
    name = substr(s, RSTART, RLENGTH - 1)
    result = tidy(substr(s, 1, RSTART - 1))
    s = substr(s, RSTART + RLENGTH)
    rest = tidy(substr(s, index(s, ")") + 1))
    many = split(substr(s, 1, index(s, ")") - 1), each, ",")
    for (n = 1; n <= many; n++)
        types = types (n > 1 ? ", " : "") without_name(tidy(each[n]))
    print_text(kind " " name ": " result " (" types ")" (rest == "" ? "" : " " rest))
    # (which the compiler refuses if the header doesn't declare it)
    print "    (void)sizeof &" name ";"
}

# declare(s): lists what one declaration declares
function declare(s) {
    if (s ~ /^enum /)
        enumerate(s)
    else if (s ~ /^typedef struct /)
        structure(s)
    else if (sub(/^DMA330_INLINE /, "", s))
        prototype("inline", s)
    else if (s ~ /^[a-z].*dma330_[a-z0-9_]+\(/)
        prototype("call", s)
}

END {
    text = without_comments(text)
    gsub(/\\\n/, " ", text)
    print "#include <stddef.h>"
    print "static void print(const long long *values, size_t count)\n{"
    print "    for (size_t n = 0; n < count; n++)\n        printf(\" %lld\", values[n]);\n    puts(\"\");\n}"
    print "int main(void)\n{"
    many = split(text, lines, "\n")
    for (n = 1; n <= many; n++) {
        line = tidy(lines[n])
        if (line ~ /^#/) {
            is_for_cxx = line ~ /__cplusplus$/ || (is_for_cxx && line !~ /^#endif/)
            if (sub(/^#define /, "", line))
                define(line)
            continue
        }
        if (line == "" || is_for_cxx)
            continue
        # (a body ends at a brace that begins its line, and has no semicolon that counts)
        is_body = is_body ? lines[n] !~ /^\}/ : lines[n] ~ /^\{/
        if (is_body || lines[n] ~ /^\}$/) {
            if (statement ~ /^DMA330_INLINE /)
                declare(statement)
            statement = ""
            continue
        }
        statement = tidy(statement " " line)
        if (statement ~ /;$/ && (statement !~ /\{/ || statement ~ /\}[ a-z0-9_]*;$/)) {
            sub(/;$/, "", statement)
            declare(statement)
            statement = ""
        }
    }
    print "    return 0;\n}"
}
