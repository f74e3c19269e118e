# manpages.awk HEADER TEMPLATE: writes into the working folder tweedstork.3, which is the template with its places filled in,
# and for each function of the header a page NAME.3: its prototype, the comment above it, and the types that it names. All of
# this is taken from the header, so that no page can say anything else.
#
# What it needs of the header: comments are /* */; a function's stands directly above it, or above the type before it, and begins
# with a sentence that says what the function is for; "Takes:" and the like begin a line, and what belongs to them is indented;
# "- " or "1. " begins an item of a list; code stands after an empty line and is indented by four.

BEGIN {
    columns = 71 # those that a page of 80 columns leaves for text
    escape["\\"] = "\\e"
    escape["-"] = "\\-"
    escape["'"] = "\\(aq"
    escape["\""] = "\\(dq"
    escape["`"] = "\\(ga"
    escape["^"] = "\\(ha"
    escape["~"] = "\\(ti"
    read_header(content(ARGV[1]))
    template = content(ARGV[2])
    if (version == "" || functions == 0 || numbers == 0)
        complain("no version, no functions or no answer numbers in " ARGV[1])
    for (f = 1; f <= functions && !failed; f++)
        write_page(name[f])
    if (!failed)
        write_overview(template)
    exit failed
}

function complain(text) { print "manpages: " text >"/dev/stderr"; failed = 1 }

function content(file,   row, text) {
    while ((getline row <file) > 0)
        text = text row "\n"
    close(file)
    if (text == "")
        complain("cannot read " file)
    return text
}

# ---- the header ----

# Declaration by declaration, each with the comment that stands directly above it. What is for C++ only is passed over.
function read_header(text,   above, size, piece) {
    while (text != "" && !failed) {
        if (match(text, /^[ \t\n]+/)) {
            size = RLENGTH
            piece = substr(text, 1, size)
            if (gsub(/\n/, "", piece) > 1)
                above = ""
        } else if (text ~ /^\/[*]/) {
            size = index(text, "*/") + 1
            above = substr(text, 3, size - 4)
            if (head == "")
                head = above
        } else if (text ~ /^#ifdef __cplusplus/) {
            size = index(text, "#endif") + 5
            above = ""
        } else if (match(text, /^#(\\\n|[^\n])*/)) {
            size = RLENGTH
            piece = substr(text, 1, size)
            if (sub(/^#define TWEEDSTORK_VERSION "/, "", piece) && sub(/".*/, "", piece))
                version = piece
            above = ""
        } else {
            size = size_of_declaration(text)
            read_declaration(substr(text, 1, size), above)
            above = ""
        }
        text = substr(text, size + 1)
    }
}

# Up to the ; that ends it, or the } that ends a function's body.
function size_of_declaration(text,   at, c, depth, is_body) {
    at = 1
    while (match(substr(text, at), /\/[*]|["'{};]/)) {
        at += RSTART
        c = substr(text, at - 1, 1)
        if (c == "/") {
            at += index(substr(text, at), "*/") + 1
        } else if (c == "\"" || c == "'") {
            while (at <= length(text) && substr(text, at, 1) != c)
                at += substr(text, at, 1) == "\\" ? 2 : 1
            at++
        } else if (c == "{") {
            if (depth++ == 0)
                is_body = index(substr(text, 1, at), "(") > 0
        } else if (c == "}" ? --depth == 0 && is_body : depth == 0) {
            return at - 1
        }
    }
    complain("a declaration without an end: " substr(text, 1, 60))
    return length(text)
}

function read_declaration(code, above,   plain, start, own) {
    plain = code
    while ((start = index(plain, "/*")) > 0)
        plain = substr(plain, 1, start - 1) substr(plain, start + index(substr(plain, start), "*/") + 1)
    gsub(/[ \t\n]+/, " ", plain)
    if (plain ~ /^(struct|enum)( [a-z0-9_]+)? [{]/) {
        type_code[++types] = code
        type_comment[types] = above_type = above
        sub(/ [{].*/, "", plain)
        type[types] = plain
        if (plain == "enum tweedstork_number")
            numbers = types
        return
    }
    sub(/ ?[{].*|;$/, "", plain)
    if (match(plain, /tweedstork_[a-z0-9_]+\(/)) {
        own = name[++functions] = substr(plain, RSTART, RLENGTH - 1)
        result[own] = substr(plain, 1, RSTART - 1)
        in_header[own] = sub(/^static inline /, "", result[own])
        parameters[own] = substr(plain, RSTART + RLENGTH)
        if (!sub(/ ?\)$/, "", parameters[own]) || parameters[own] ~ /[()]/)
            complain("this program does not understand the parameters of " own)
        sub(/^ /, "", parameters[own])
        comment[own] = above != "" ? above : above_type
        if (comment[own] == "")
            complain("no comment stands above " own)
    }
    above_type = ""
}

# A comment's lines without its stars, into line[1] and so on; returns how many.
function lines_of(text,   count, first, i) {
    count = split(text, line, "\n")
    for (i = 1; i <= count; i++) {
        sub(/^[ \t]*[*]? ?/, "", line[i])
        sub(/[ \t]+$/, "", line[i])
    }
    for (first = 1; first <= count && line[first] == ""; first++)
        continue
    for (i = first; i <= count; i++)
        line[i - first + 1] = line[i]
    count -= first - 1
    while (count > 0 && line[count] == "")
        count--
    return count
}

function joined(text,   count, i, all) {
    count = lines_of(text)
    for (i = 1; i <= count; i++)
        all = all " " line[i]
    gsub(/ +/, " ", all)
    return substr(all, 2)
}

# The first sentence of a comment, as a page's NAME wants it: without its full stop and its capital letter.
function summary(text,   count, i, all) {
    count = lines_of(text)
    for (i = 1; i <= count && line[i] != "" && !is_heading(i, count); i++)
        all = all (i > 1 ? " " : "") line[i]
    if (match(all, /[.?!]( |$)/))
        all = substr(all, 1, RSTART - (substr(all, RSTART, 1) == "."))
    return all ~ /^[A-Z][a-z ]/ ? tolower(substr(all, 1, 1)) substr(all, 2) : all
}

# The parts of a type's body, into part[1] and so on: code up to its ; or , and in part_comment what is said of it. A comment on
# a line of its own has no code.
function parts_of(code,   body, count, separator, is_new_line, pending, said, size, token) {
    separator = code ~ /^enum/ ? "," : ";"
    body = substr(code, index(code, "{") + 1)
    sub(/[}][^}]*$/, "", body)
    for (; body != ""; body = substr(body, size + 1)) {
        if (match(body, /^[ \t\n]+/)) {
            size = RLENGTH
            is_new_line = is_new_line || substr(body, 1, size) ~ /\n/
            pending = pending (pending == "" ? "" : " ")
            continue
        }
        if (body ~ /^\/[*]/) {
            size = index(body, "*/") + 1
            token = joined(substr(body, 3, size - 4))
            if (pending != "") {
                said = token
            } else {
                if (count == 0 || is_new_line)
                    part[++count] = ""
                part_comment[count] = token
            }
        } else {
            match(body, /^([^ \t\n;,\/]+|.)/)
            size = RLENGTH
            token = substr(body, 1, size)
            pending = pending token
            if (token == separator) {
                part[++count] = pending
                part_comment[count] = said
                pending = said = ""
            }
        }
        is_new_line = 0
    }
    if (pending != "") { # the last of an enum
        sub(/ +$/, "", pending)
        part[++count] = pending
        part_comment[count] = said
    }
    return count
}

# ---- text as roff ----

# A section begins with a paragraph of its own.
function put(text) {
    if (text != ".PP" || last_put !~ /^\.SH/)
        print text >page
    last_put = text
}

# Text that is to stand as it is.
function escaped(text,   done) {
    while (match(text, /[\\'"`^~-]/)) {
        done = done substr(text, 1, RSTART - 1) escape[substr(text, RSTART, 1)]
        text = substr(text, RSTART + 1)
    }
    return done text
}

# A line of text, which may begin with a dot.
function put_line(text) { put((text ~ /^\./ ? "\\&" : "") text) }

# A word, in which the library's names stand out.
function marked(word,   start, size) {
    if (!match(word, /(tweedstork|TWEEDSTORK)_[A-Za-z0-9_]*[A-Za-z0-9]/))
        return escaped(word)
    start = RSTART
    size = RLENGTH
    return escaped(substr(word, 1, start - 1)) "\\fB" substr(word, start, size) "\\fP" marked(substr(word, start + size))
}

# Each sentence begins a line, so that roff spaces them alike.
function put_text(text,   words, count, i, row, word) {
    count = split(text, words, " ")
    for (i = 1; i <= count; i++) {
        word = marked(words[i])
        if (row != "" && length(row) + length(word) >= 80) {
            put_line(row)
            row = ""
        }
        row = row (row == "" ? "" : " ") word
        if (i == count || words[i] ~ /[.?!][)"]*$/) {
            put_line(row)
            row = ""
        }
    }
}

# "Takes:" and the like: one word at the line's beginning, with no text below it.
function is_heading(i, count) {
    if (line[i] !~ /^[A-Z][a-z]+:( |$)/)
        return 0
    return i < count && line[i + 1] ~ /^ / || line[i] ~ /: / && (i == count || line[i + 1] ~ /^([A-Z][a-z]+: |$)/)
}

# A comment as text. Lines are filled; a paragraph ends with an empty line, where the next line is indented less, and with a line
# that was ended on purpose.
function describe(text,   count, i, widest, indent, code, before, words) {
    count = lines_of(text)
    for (i = 1; i <= count; i++)
        widest = length(line[i]) > widest ? length(line[i]) : widest
    paragraph = ""
    heading = item = code = 0 # the columns where their texts begin
    opening = ".PP"
    for (i = 1; i <= count; before = line[i++]) {
        if (code && indent_of(line[i]) < code && (line[i] != "" || indent_of(line[i + 1]) < code))
            code = end_code()
        if (!code && is_heading(i, count)) {
            end_item()
            put(".TP 10\n.B " substr(line[i], 1, index(line[i], ":")))
            opening = ""
            match(line[i], /^[^ ]+ */)
            line[i] = sprintf("%" RLENGTH "s", "") substr(line[i], RLENGTH + 1)
            heading = indent_of(line[i] ~ /[^ ]/ ? line[i] : line[i + 1])
        }
        indent = indent_of(line[i])
        text = substr(line[i], indent + 1)
        split(text, words, " ")
        if (code) {
            put_line(escaped(substr(line[i], code + 1)))
        } else if (text == "") {
            end_paragraph()
        } else if (text ~ /^(-|[0-9]+[.)]) / && (item ? indent < item : had_fitted(words[1] " " words[2], before, widest))) {
            end_paragraph()
            if (heading && !item)
                put(".RS 10")
            match(text, /^[^ ]+ +/)
            item = indent + RLENGTH
            hang = words[1] == "-" ? 3 : 4
            opening = ".IP " (words[1] == "-" ? "\\(bu" : words[1]) " " hang
            paragraph = substr(text, RLENGTH + 1)
        } else if (before == "" && indent >= (item ? item : heading) + 4) {
            put(opening "\n.EX")
            code = indent
            put_line(escaped(text))
        } else {
            if (item && indent < item)
                end_item()
            if (heading && indent == 0) {
                end_paragraph()
                heading = 0
                opening = ".PP"
            }
            if (indent < indent_of(before) || before ~ /[.:;?!]$/ && had_fitted(words[1], before, widest))
                end_paragraph()
            paragraph = paragraph (paragraph == "" ? "" : " ") text
        }
    }
    if (code)
        end_code()
    end_item()
}

# .EE lets words be broken again.
function end_code() {
    put(".EE\n.nh")
    return 0
}

function indent_of(text) { match(text, /^ */); return RLENGTH }

# A line that ends though the next word had fitted was ended on purpose.
function had_fitted(word, before, widest) { return length(before) + 1 + length(word) <= widest }

function end_paragraph() {
    if (paragraph != "") {
        if (opening != "")
            put(opening)
        put_text(paragraph)
        paragraph = ""
        opening = item ? ".IP \"\" " hang : heading ? ".IP \"\" 10" : ".PP"
    }
}

function end_item() {
    end_paragraph()
    if (heading && item)
        put(".RE")
    item = 0
    opening = heading ? ".IP \"\" 10" : ".PP"
}

# Words on lines that aren't filled. The end of a comment stays with its last word.
function put_wrapped(first, text, others,   words, count, i, row) {
    count = split(text, words, " ")
    if (words[count] == "*/") {
        count--
        words[count] = words[count] " */"
    }
    row = first words[1]
    for (i = 2; i <= count; i++) {
        if (length(row " " words[i]) > columns) {
            put_line(escaped(row))
            row = others words[i]
        } else {
            row = row " " words[i]
        }
    }
    put_line(escaped(row))
}

# ---- code as roff ----

# A prototype: on one line, or all parameters on the second, or each on a line, a slice's pointer and length together.
function put_prototype(own,   all, count, i, row, first, fits) {
    first = result[own] own "("
    fits = length(first parameters[own] ");") <= columns ? 2 : length("    " parameters[own] ");") <= columns
    count = split(parameters[own], all, / ?, ?/)
    row = "\\fB" escaped(first)
    for (i = 1; i <= count; i++) {
        if (i == 1 ? fits < 2 : fits == 0 && !is_length(all[i], all[i - 1])) {
            put(row)
            row = "\\fB   "
        }
        row = row (i == 1 && fits == 2 ? "" : " ") typed(all[i]) (i < count ? "," : "")
    }
    put(row ");\\fR")
}

# Is the parameter the length of the one before, with room on its line?
function is_length(text, before) {
    return text == "size_t " last_word(before) "_length" && length("    " before ", " text ");") <= columns
}

function last_word(text) { sub(/.*[ *]/, "", text); return text }

# A parameter amid bold text, with its name in italics.
function typed(text,   own) {
    own = last_word(text)
    return own == text ? own : escaped(substr(text, 1, length(text) - length(own))) "\\fI" own "\\fB"
}

# A type as in the header; comments behind the code in one column, or above it where that column would be narrow.
function put_type(t,   count, i, column, margin) {
    if (type_comment[t] != "")
        describe(type_comment[t])
    put(".PP")
    put(".EX")
    put_line(escaped(type[t] " {"))
    count = parts_of(type_code[t])
    for (i = 1; i <= count; i++)
        if (part[i] != "" && part_comment[i] != "" && length(part[i]) + 5 > column)
            column = length(part[i]) + 5
    margin = sprintf("%" (column + 3) "s", "")
    for (i = 1; i <= count; i++) {
        if (part_comment[i] != "" && (part[i] == "" || columns - column < 24))
            put_wrapped("    /* ", part_comment[i] " */", "       ")
        else if (part_comment[i] != "")
            put_wrapped(sprintf("%-" column "s/* ", "    " part[i]), part_comment[i] " */", margin)
        if (part[i] != "" && (part_comment[i] == "" || columns - column < 24))
            put_wrapped("    ", part[i], "        ")
    }
    put("};")
    end_code()
}

# ---- the pages ----

function note_words(text, said,   all, count, i) {
    count = split(text, all, /[^A-Za-z0-9_]+/)
    for (i = 1; i <= count; i++)
        said[all[i]] = 1
}

# Does a text name the type, or one of an enum's constants?
function is_said(t, said,   tag, count, i) {
    tag = type[t]
    if (sub(/^[a-z]+ /, "", tag) && tag in said)
        return 1
    count = type[t] ~ /^enum/ ? parts_of(type_code[t]) : 0
    for (i = 1; i <= count; i++) {
        tag = part[i]
        sub(/[ ,].*/, "", tag)
        if (tag in said && tag != "")
            return 1
    }
    return 0
}

# Has the struct an array of one that the function takes a slice of? Then it is the memory that is lent to the function.
function is_lent(t, own,   code, held) {
    code = type_code[t]
    while (match(code, /struct [a-z0-9_]+ [a-z0-9_]+\[/)) {
        held = substr(code, RSTART, RLENGTH)
        sub(/ [a-z0-9_]+\[$/, " *", held)
        if (index(parameters[own], held) > 0)
            return 1
        code = substr(code, RSTART + RLENGTH)
    }
    return 0
}

# The types that a function names, and those that these name: structs, enums, and last the answer numbers, which are many. A
# parameter names the enum that is called as it is, but for a number, which may be any.
function put_types(own,   said, all, count, i, t, is_named, more, begun) {
    note_words(result[own] " " parameters[own] " " comment[own], said)
    count = split(parameters[own], all, / ?, ?/)
    for (i = 1; i <= count; i++)
        if (last_word(all[i]) != "number")
            said["tweedstork_" last_word(all[i])] = 1
    do {
        more = 0
        for (t = 1; t <= types; t++)
            if (!(t in is_named) && (is_said(t, said) || is_lent(t, own))) {
                is_named[t] = more = 1
                if (type[t] ~ /^struct/)
                    note_words(type_code[t] " " type_comment[t], said)
                if (type[t] ~ /^struct/ && type_code[t] ~ /[ \n]number;/)
                    said["tweedstork_number"] = 1
            }
    } while (more)
    for (i = 1; i <= 2 * types; i++) {
        t = i <= types ? i : i - types
        if (t in is_named && t != numbers && (type[t] ~ /^struct/) == (i <= types)) {
            if (!begun++)
                put(".SH TYPES")
            put_type(t)
        }
    }
    if (numbers in is_named) {
        put(".SH ANSWER NUMBERS")
        put_type(numbers)
    }
}

function write_page(own,   said, i, others) {
    page = own ".3"
    # The name stands at either end of a page's head: a long one leaves no room between.
    put(".TH " toupper(own) " 3 \"\" \"tweedstork " version "\" \"" (length(own) > 29 ? "" : "Library calls") "\"")
    put(".nh") # no name is to be broken
    put(".ad l")
    put(".SH NAME")
    put(own " \\- " escaped(summary(comment[own])))
    put(".SH SYNOPSIS")
    put(".nf")
    put(".B #include <tweedstork.h>")
    put(".PP")
    put_prototype(own)
    put(".fi")
    put(".PP")
    put("Link with\n.IR \\-ltweedstork .")
    put(".SH DESCRIPTION")
    describe(comment[own])
    put(".PP")
    put_text(in_header[own] ? "This function is C in the header, tested and not proved." : \
        "This call is in the archive, and proved to answer as its definition says, for every input.")
    put_types(own)
    put(".SH SEE ALSO")
    note_words(comment[own], said)
    for (i = 1; i <= functions; i++)
        if (name[i] in said && name[i] != own)
            others = others "),\n.BR " name[i] " (3"
    put(".BR tweedstork (3" others ")")
    close(page)
}

function write_overview(template,   rows, count, i, k, about) {
    page = "tweedstork.3"
    count = split(template, rows, "\n")
    for (i = 1; i < count; i++) {
        if (rows[i] == "@ARCHIVE@" || rows[i] == "@HEADER@") {
            for (k = 1; k <= functions; k++)
                if (in_header[name[k]] == (rows[i] == "@HEADER@")) {
                    put(".PP")
                    put_prototype(name[k])
                }
        } else if (rows[i] == "@ABOUT@") {
            about = head # its title is the page's NAME
            if (!sub(/^[^a-z]*tweedstork\.h: [^\n]*\n[ *]*\n/, "", about))
                sub(/tweedstork\.h: /, "", about)
            describe(about)
        } else if (rows[i] == "@FUNCTIONS@") {
            for (k = 1; k <= functions; k++) {
                put(".TP")
                put(".BR " name[k] " (3)")
                put_text(summary(comment[name[k]]))
            }
        } else if (rows[i] == "@NUMBERS@") {
            put_type(numbers)
        } else {
            gsub(/@VERSION@/, version, rows[i])
            put(rows[i])
        }
    }
    close(page)
}
