#!/usr/bin/env bash
# What the documents say of the repository: that their links lead somewhere, that the definitions and laws they name stand in the
# crates, and in the files they name, that README.md's table has the header's functions, and that the words of an answer number are
# the comment beside it. Whether they tell a rule rightly it can't see.
# Usage: documents.sh
set -euo pipefail
export LC_ALL=C # one order for sort and comm
cd "$(dirname "$0")/.."
header=include/tweedstork.h
documents=(README.md docs/*.md docs/changes/*.md)
failed=0

complain() {
    echo "documents: $*"
    failed=1
}

# The anchors of a document's headings: small letters, no punctuation, hyphens for spaces. What stands in a block of code is no heading.
anchors() { # anchors FILE
    awk '/^```/ { code = !code }
        /^#+ / && !code { sub(/^#+ /, ""); $0 = tolower($0); gsub(/[^a-z0-9 _-]/, ""); gsub(/ /, "-"); print }' "$1"
}

# Each link, as 'DOCUMENT TARGET'; one that leads outside the repository is not followed.
links() {
    grep -o '](\([^)]*\))' "${documents[@]}" | sed -e 's/:](/ /' -e 's/)$//' | grep -v ' https\{0,1\}:'
}

check_links() {
    local document target file anchor
    while read -r document target; do
        file=${target%%#*}
        anchor=${target#"$file"}
        if [ -n "$file" ]; then file=$(dirname "$document")/$file; else file=$document; fi
        if [ ! -e "$file" ]; then
            complain "$document: the link $target leads nowhere"
        elif [ -n "$anchor" ] && ! anchors "$file" | grep -qx -e "${anchor#\#}"; then
            complain "$document: $target names no heading of $file"
        fi
        checked=$((checked + 1))
    done < <(links)
}

# Each name with the file that it is said to stand in, as 'DOCUMENT FILE NAME': `name`, `name` (`FILE`) and `name`, `name` in `FILE`.
named() {
    awk '
        {
            rest = $0
            while (match(rest, /(`[^` ]+`(, | and ))*`[^` ]+` (\(|in )`[a-z0-9]+\/(specs|proofs)\/[A-Za-z]+\.antt`/)) {
                part = substr(rest, RSTART, RLENGTH)
                rest = substr(rest, RSTART + RLENGTH)
                count = split(part, word, "`")
                for (i = 2; i < count - 1; i += 2)
                    if (word[i] !~ /\.\./) # `exactly-..` stands for several
                        print FILENAME, word[count - 1], word[i]
            }
        }' "${documents[@]}"
}

# A name is defined, or proved, where a line begins with it, perhaps after what may stand before it.
check_names() {
    local document file name
    while read -r document file name; do
        if [ ! -e "crates/$file" ]; then
            complain "$document: there is no crates/$file"
        elif ! awk -v name="$name" '
            { sub(/^ +/, ""); gsub(/^((unfoldable|abbrev|pub|record|data) )+/, ""); sub(/^«/, ""); sub(/».*/, "") }
            $1 == name { found = 1 }
            END { exit !found }' "crates/$file"; then
            complain "$document: crates/$file has no $name"
        fi
        checked=$((checked + 1))
    done < <(named | sort -u)
}

# Every file of definitions or laws that a document names is there.
check_files() {
    local file
    for file in $(grep -oh '`[a-z0-9]*/\(specs\|proofs\)/[A-Za-z]*\.antt`' "${documents[@]}" | tr -d '`' | sort -u); do
        [ -e "crates/$file" ] || complain "there is no crates/$file"
        checked=$((checked + 1))
    done
}

# Every name of a definition, a law or a must-fail edit, in whatever sentence of these documents, stands somewhere in the crates: two
# words joined by `_` or a hyphen, or written together.
check_words_of_crates() {
    local unknown
    unknown=$(comm -23 \
        <(grep -oh '`[a-z][A-Za-z0-9]*\([_-][a-z0-9]\+\|[A-Z][A-Za-z0-9]*\)\+`' docs/CLAIMS.md docs/RULES.md docs/ARCHITECTURE.md | tr -d '`' | sort -u) \
        <({
            grep -rohE --exclude-dir=out --include='*.antt' --include='*.rt' '[A-Za-z][A-Za-z0-9_-]*' crates
            find crates -name '*.edit' | sed -e 's/.*\///' -e 's/\.edit$//'
            ls crates
        } | sort -u))
    [ -z "$unknown" ] || complain "no crate has ${unknown//$'\n'/, }"
    checked=$((checked + 1))
}

check_functions() {
    local listed declared
    listed=$(sed -n 's/^| `\(tweedstork_[a-z_]*\)` |.*/\1/p' README.md | sort)
    declared=$(grep -o '^[a-z][a-z0-9_ *]* \**tweedstork_[a-z_]*(' $header | grep -o 'tweedstork_[a-z_]*($' | tr -d '(' | sort)
    if ! diff <(echo "$listed") <(echo "$declared"); then
        complain "README.md's table (<) and the header's functions (>) differ"
    fi
    checked=$((checked + 1))
}

# A number's comment, which may go over several lines, and its words, of which a long sentence is in several parts.
check_words() {
    local differing
    differing=$(awk '
        /^enum tweedstork_number/ { numbers = 1 }
        /^};/ { numbers = 0 }
        numbers && / = [0-9]+,? +\/\*/ { name = $1; text = $0; sub(/^[^*]*\* /, "", text); comment[name] = ""; within = 1; $0 = text }
        numbers && within { gsub(/^ +/, ""); last = sub(/ \*\/$/, ""); comment[name] = comment[name] (comment[name] == "" ? "" : " ") $0; within = !last }
        /^    case TWEEDSTORK_/ { name = $2; sub(/:$/, "", name); sentence = 1 }
        sentence {
            rest = $0
            while (match(rest, /"[^"]*"/)) {
                words[name] = words[name] substr(rest, RSTART + 1, RLENGTH - 2)
                rest = substr(rest, RSTART + RLENGTH)
            }
            sentence = $0 !~ /;$/
        }
        END {
            for (name in comment) {
                count++
                if (comment[name] != words[name])
                    print name ": the comment is \047" comment[name] "\047, the words are \047" words[name] "\047"
            }
            if (count == 0)
                print "no number found"
        }' $header)
    [ -z "$differing" ] || complain "$differing"
    checked=$((checked + 1))
}

checked=0
check_links
check_names
check_files
check_words_of_crates
check_functions
check_words
[ "$failed" -eq 0 ] && echo "documents: $checked links, names and lists, as they say"
exit "$failed"
