#!/usr/bin/env bash
# The header's declarations against the Rattle source's, one by one: the exported functions with their results and parameters,
# the structs that these name, field by field, and the version. Both sides are written in one form, a line for each place: the
# declaration, the place in it, and its C text. A type that no rule below knows is an error that names it.
# Usage: declarations.sh
set -euo pipefail
cd "$(dirname "$0")/.."
header=include/tweedstork.h
source=crates/tweedstork_c/src # what is exported
library=crates/tweedstork/src
files=$(mktemp -d)
trap 'rm -rf "$files"' EXIT

# What the awk programs share. Each reads a plain text, which is one line, and fails after a complaint.
shared='
function place(declaration, where, text) { print declaration "\t" where "\t" text }
function complain(text) { print "declarations: " text >"/dev/stderr"; failed = 1 }
function unknown(declaration, text) { complain(declaration ": this test knows no type as in \047" text "\047") }
function pieces(text, separator,   i, count) { # into piece[1], piece[2] and so on, an empty last one left out
    count = split(text, piece, separator)
    for (i = 1; i <= count; i++)
        gsub(/^ +| +$/, "", piece[i])
    return count > 0 && piece[count] == "" ? count - 1 : count
}
function c_struct(name,   i, c, words) { # TxtAnswer is struct tweedstork_txt_answer
    for (i = 1; i <= length(name); i++) {
        c = substr(name, i, 1)
        words = words (c ~ /[A-Z]/ ? "_" tolower(c) : c)
    }
    return "struct tweedstork" words
}
END { exit failed }'

# Rattle without comments.
plain_source() { # plain_source FILE..
    awk '{ sub(/\/\/.*/, ""); printf "%s ", $0 } END { print "" }' "$@" | tr -s ' \t' ' '
}

# The header without comments, directives, what is for C++ only, and the functions that are C of its own.
plain_header() {
    awk '{ text = text $0 "\n" }
        END {
            while ((start = index(text, "/*")) > 0) {
                rest = substr(text, start + 2)
                text = substr(text, 1, start - 1) substr(rest, index(rest, "*/") + 2)
            }
            printf "%s", text
        }' $header | awk '
        /^#ifdef __cplusplus/, /^#endif/ { next }
        /^static inline/, /^}/ { next }
        /^#/ { next }
        { printf "%s ", $0 }
        END { print "" }' | tr -s ' \t' ' '
}

# The functions that the archive exports. A u64 is a uint64_t; a slice is a pointer, const unless it is &mut, and a length.
source_functions() {
    plain_source $source/*.rt | awk "$shared"'
        function parameter(name, text,   label, type, element) {
            gsub(/\047[a-z]+ /, "", text) # lifetimes
            label = type = text
            sub(/:.*/, "", label)
            sub(/^[^:]*: /, "", type)
            element = type
            gsub(/^&(mut )?\[|\]$/, "", element)
            element = element == "u8" ? "uint8_t" : element ~ /^[A-Z][A-Za-z0-9]*$/ ? c_struct(element) : ""
            if (type == "u64") {
                place(name, "parameter " (++count), "uint64_t " label)
            } else if (type ~ /^&(mut )?\[/ && element != "") {
                place(name, "parameter " (++count), (type ~ /^&mut/ ? "" : "const ") element " *" label)
                place(name, "parameter " (++count), "size_t " label "_length")
            } else {
                unknown(name, text)
            }
        }
        function one(text,   name, result, i, parts) {
            name = result = text
            sub(/^.* fn /, "", name)
            sub(/[<(].*/, "", name)
            sub(/^.*\)( -> )?/, "", result)
            if (result != "u64" && result !~ /^[A-Z]/)
                unknown(name, "-> " result)
            place(name, "result", result == "u64" ? "uint64_t" : c_struct(result))
            gsub(/^[^(]*\(|\).*$/, "", text)
            parts = pieces(text, ",")
            count = 0
            for (i = 1; i <= parts; i++)
                parameter(name, piece[i])
            if (count == 0)
                place(name, "parameter 1", "void")
        }
        {
            marked = gsub(/no_mangle/, "&")
            while (match($0, /#\[unsafe\(no_mangle\)\] pub extern "C" fn [a-z0-9_]+(<[^>]*>)?\([^)]*\)( -> [A-Za-z0-9]+)?/)) {
                one(substr($0, RSTART + 21, RLENGTH - 21)) # without its mark
                $0 = substr($0, RSTART + RLENGTH)
                understood++
            }
            if (understood != marked)
                complain("of " marked " functions marked #[unsafe(no_mangle)] this test understands " understood)
        }'
}

# The functions that the header declares: what is left without its enums and structs.
header_functions() {
    plain_header | awk "$shared"'
        function one(text,   name, result, i, parts) {
            name = result = text
            sub(/\(.*/, "", name)
            sub(/.* /, "", name)
            sub(/ [^ ]*\(.*/, "", result)
            if (result !~ /^(uint64_t|struct tweedstork_[a-z0-9_]+)$/)
                unknown(name, result)
            place(name, "result", result)
            gsub(/^[^(]*\(|\)$/, "", text)
            parts = pieces(text, ",")
            for (i = 1; i <= parts; i++) {
                if (piece[i] !~ /^(uint64_t |size_t |(const )?(uint8_t|struct tweedstork_[a-z0-9_]+) \*)[a-z0-9_]+$/ && text != "void")
                    unknown(name, piece[i])
                place(name, "parameter " i, piece[i])
            }
        }
        {
            gsub(/(enum|struct) ([a-z0-9_]+ )?[{][^}]*[}];/, "")
            count = pieces($0, ";")
            for (i = 1; i <= count; i++)
                statement[i] = piece[i]
            for (i = 1; i <= count; i++)
                if (statement[i] ~ /^[a-z0-9_ ]+ [a-z0-9_]+\([^()]*\)$/)
                    one(statement[i])
                else
                    complain("this test does not understand \047" statement[i] "\047 in the header")
        }'
}

# The structs that the functions name, from the crates that the source takes them from. A field is a u64 or an array of bytes.
source_structs() { # source_structs NAMES, a | on either side of each
    grep -ho '^use [a-z_]*::\([A-Z][A-Za-z0-9]*\|{[A-Za-z0-9, ]*}\);' $source/*.rt | tr -d '{},;' |
        awk '{ sub(/^use /, ""); sub(/::/, " "); for (i = 2; i <= NF; i++) print $1, $i }' | while read -r crate name; do
        plain_source crates/"$crate"/src/*.rt | awk -v names="$1" -v name="$name" "$shared"'
            function field(text,   label, type) {
                label = type = text
                gsub(/^pub |:.*$/, "", label)
                sub(/^[^:]*: /, "", type)
                if (text !~ /^pub [a-z0-9_]+: (u64|\[u8; [0-9]+\])$/)
                    unknown(c_struct(name), text)
                return type == "u64" ? "uint64_t " label : "uint8_t " label "[" substr(type, 6)
            }
            index(names, "|" c_struct(name) "|") == 0 { exit }
            !match($0, "#\\[repr\\(C\\)\\] (#\\[derive\\([A-Za-z, ]*\\)\\] )?pub struct " name " [{][^}]*[}]") { complain("no #[repr(C)] pub struct " name " in its crate"); exit }
            {
                text = substr($0, RSTART, RLENGTH)
                gsub(/^[^{]*[{]|[}]$/, "", text)
                fields = pieces(text, ",")
                for (i = 1; i <= fields; i++)
                    place(c_struct(name), "field " i, field(piece[i]))
            }'
    done
}

header_structs() { # header_structs NAMES, a | on either side of each
    plain_header | awk -v names="$1" "$shared"'
        {
            while (match($0, /struct tweedstork_[a-z0-9_]+ [{][^}]*[}];/)) {
                name = text = substr($0, RSTART, RLENGTH)
                $0 = substr($0, RSTART + RLENGTH)
                sub(/ [{].*/, "", name)
                gsub(/^[^{]*[{]|[}];$/, "", text)
                fields = index(names, "|" name "|") == 0 ? 0 : pieces(text, ";")
                for (i = 1; i <= fields; i++) {
                    if (piece[i] !~ /^(uint64_t [a-z0-9_]+|uint8_t [a-z0-9_]+\[[0-9]+\])$/)
                        unknown(name, piece[i])
                    place(name, "field " i, piece[i])
                }
            }
        }'
}

# The version: a number in the source of the library, which the export hands on; in the header that number, and a text, major.minor.patch, that makes the same number.
source_version() {
    plain_source $library/*.rt | awk "$shared"'
        match($0, /fn tweedstork_version\(\) -> u64 ensures [{][^}]*[}] [{] [0-9]+ [}]/) {
            number = substr($0, RSTART, RLENGTH - 2)
            sub(/.* /, "", number)
            place("the version", "as a number", number)
            place("the version", "as a text", number)
        }'
}

header_version() {
    awk "$shared"'
        $2 == "TWEEDSTORK_VERSION_NUMBER" { place("the version", "as a number", $3) }
        $2 == "TWEEDSTORK_VERSION" {
            if ($3 !~ /^"[0-9]+\.[0-9][0-9]?\.[0-9][0-9]?"$/)
                complain("the version " $3 " is no \"major.minor.patch\"")
            split(substr($3, 2), part, /[."]/)
            place("the version", "as a text", part[1] * 10000 + part[2] * 100 + part[3])
        }' $header
}

# Names the first difference of each declaration; where there is none it says how many declarations there are.
compare() {
    awk -F '\t' '
        function text(side, key) { return key in side ? "\047" side[key] "\047" : "nothing" }
        { key = $1 ", " $2 }
        !(key in source) && !(key in header) { order[++count] = key; declaration[key] = $1 }
        FNR == NR { source[key] = $3; next }
        { header[key] = $3 }
        END {
            for (i = 1; i <= count; i++) {
                key = order[i]
                if (text(source, key) != text(header, key) && !(declaration[key] in told)) {
                    told[declaration[key]] = failed = 1
                    print "declarations: " key ": the source has " text(source, key) ", the header " text(header, key)
                }
                functions += key ~ /, result$/
                structs += key ~ /, field 1$/
            }
            if (!failed)
                print "declarations: " functions " functions, " structs " structs, the same in header and source"
            exit failed
        }' "$files/source" "$files/header"
}

if grep -rn --include='*.rt' --exclude-dir=out no_mangle crates | grep -v "^$source/"; then
    echo "declarations: a function is exported outside $source" >&2
    exit 1
fi
source_functions >"$files/source"
header_functions >"$files/header"
names=$(cut -f 3 "$files/source" "$files/header" | grep -o 'struct tweedstork_[a-z0-9_]*' | sort -u | tr '\n' '|')
source_structs "|$names" >>"$files/source"
header_structs "|$names" >>"$files/header"
source_version >>"$files/source"
header_version >>"$files/header"
compare
