#!/usr/bin/env bash
# Installs into folders of its own, by make, and holds what is there to what is promised: exactly the files that are to be there;
# for each function a man page with the prototype that the header has; README.md's program and the man page's example, built by
# pkg-config alone, do what they say; and after make uninstall only what others put there is left.
# Usage: install.sh ARCHIVE
set -euo pipefail
cd "$(dirname "$0")/.."
archive=$1
files=$(mktemp -d)
trap 'rm -rf "$files"' EXIT
unset PREFIX LIBDIR INCLUDEDIR MANDIR DOCDIR DESTDIR MAKEFLAGS MFLAGS
export LC_ALL=C
warnings=(-Wall -Wextra -Wpedantic -Werror)

fail() { echo "install: $*"; exit 1; }

# The archive is there and is not made anew: a copy of it is newer than its sources.
cp "$archive" "$files/archive.a"
run_make() { make -s RT=false ARCHIVE="$files/archive.a" "$@" >"$files/log" 2>&1; }
must_make() { run_make "$@" || { cat "$files/log"; fail "make $* fails"; }; }

# Those that the archive exports, and those that are C in the header.
functions() {
    nm -g --defined-only "$archive" | sed -n 's/^[0-9a-f]* T \(tweedstork_.*\)/\1/p'
    sed -n 's/^static inline .*[ *]\(tweedstork_[a-z0-9_]*\)(.*/\1/p' include/tweedstork.h
}

# What is installed, and nothing else.
ours() { # PREFIX LIBDIR
    printf '%s\n' "$1/include/tweedstork.h" "$2/libtweedstork.a" "$2/pkgconfig/tweedstork.pc" "$1/share/man/man3/tweedstork.3"
    functions | sed "s|.*|$1/share/man/man3/&.3|"
    printf "$1/share/doc/tweedstork/%s\n" docs/{RULES,RELAY,CLAIMS,DECISIONS}.md \
        examples/{certificate,discover,openssl,publish,relay,scenario}.c examples/{openssl,scenario}.h
}

# Standard input says which files the folder has to have.
has_exactly() { # FOLDER WORDS
    diff <(sort) <(cd "$1" && find . -type f | sed 's|^\./||' | sort) || fail "$2 (< is missing, > is too much)"
}

check_files() {
    if grep -rn '@[A-Z]*@' "$mans" "$libdir/pkgconfig"; then fail "a place that was to be filled in"; fi
    cmp "$archive" "$libdir/libtweedstork.a" || fail "another archive than the one that was to be installed"
    cmp include/tweedstork.h "$prefix/include/tweedstork.h" || fail "another header than the one that was to be installed"
    [ -z "$(find "$there" -type f ! -perm 644)" ] || fail "a file that not everybody may read"
}

# The prototypes of a page's synopsis, without blanks.
prototypes() { # PAGE
    sed -n '/^\.SH SYNOPSIS/,/^\.SH DESCRIPTION/s/^\\fB//p' "$1" | sed -e 's/\\f[BIR]//g' -e 's/\\-/-/g' | tr -d ' \n'
}

# The structs that a page's prototype names are shown in it.
check_types() { # NAME
    local type types
    types=$(sed -n '/^\.SH SYNOPSIS/,/^\.SH DESCRIPTION/p' "$mans/$1.3" | grep -o 'struct tweedstork_[a-z0-9_]*' | cut -d ' ' -f 2) || true
    for type in $types; do
        grep -qx "struct $type {" "$mans/$1.3" || fail "$1(3) does not show struct $type"
    done
}

check_pages() {
    local declared overview name page prototype
    declared=$("${CC:-cc}" -E -P "$prefix/include/tweedstork.h" | tr -d ' \t\n')
    overview=$(prototypes "$mans/tweedstork.3")
    for name in $(functions); do
        page=$mans/$name.3
        prototype=$(prototypes "$page")
        [[ $prototype == *"$name("*");" ]] || fail "$name(3) has no prototype"
        # From the end of the declaration before it on, so that its result is there too.
        [[ $declared == *[\;\}]"$prototype"* || $declared == *"inline${prototype%;}{"* ]] ||
            fail "$name(3) has the prototype $prototype, and the header another"
        [[ $overview == *"$prototype"* ]] || fail "tweedstork(3) has not the prototype $prototype"
        sed -n '/^\.SH NAME$/{n;p;n;p}' "$page" | tr '\n' '|' | grep -q "^$name "'\\- [^|][^|]*|\.SH SYNOPSIS|$' ||
            fail "$name(3): its NAME is not '$name - words' on a line"
        check_types "$name"
    done
    # Where a function is lent a table of entries, the struct that holds one is there too.
    for name in tweedstork_cache_store tweedstork_cache_lookup; do
        grep -qx 'struct tweedstork_cache {' "$mans/$name.3" || fail "$name(3) does not show struct tweedstork_cache"
    done
    # The comments have come along: of what they tell, each heading is in its page.
    headings=$(grep -cE '^ \* (Before|Takes|Answers|Leaves):' include/tweedstork.h) || fail "the header has no Takes or Answers"
    [ "$(cat "$mans"/tweedstork_*.3 | grep -cE '^\.B (Before|Takes|Answers|Leaves):$')" -eq "$headings" ] ||
        fail "the header has $headings of Before, Takes, Answers and Leaves, the man pages another number"
}

# What groff says of the pages, and whether they fit in 80 columns.
check_layout() {
    local page said
    command -v groff >/dev/null || return 0
    for page in "$mans"/tweedstork*.3; do
        said=$(groff -man -Tascii -ww -rLL=78n -P-cbou "$page" 2>&1 >"$files/rendered")
        [ -z "$said" ] || fail "groff says: $said"
        if grep -n '.\{81\}' "$files/rendered"; then fail "$page: over 80 columns"; fi
    done
}

run_readme() {
    # shellcheck disable=SC2016 # the backquotes are README.md's
    sed -n '/^```c$/,/^```$/{/^```/d;p}' README.md >"$files/ask.c"
    cp "$files/ask.c" "$files/ask.cc"
    sed -n 's|.*puts(.*/\* \(.*\) \*/$|\1|p' "$files/ask.c" >"$files/wanted"
    [ -s "$files/wanted" ] || fail "README.md's program says nothing of what it prints"
    "${CC:-cc}" -std=c99 "${warnings[@]}" "$files/ask.c" "${flags[@]}" -o "$files/ask"
    # In C++, unlike C, g++ wants each field named in an initializer; that the others are zero is the point of it.
    "${CXX:-c++}" -std=c++20 "${warnings[@]}" -Wno-missing-field-initializers "$files/ask.cc" "${flags[@]}" -o "$files/ask++"
    for program in ask ask++; do
        "$files/$program" >"$files/printed"
        diff "$files/wanted" "$files/printed" || fail "README.md's program prints something else than it says"
    done
}

run_example() {
    sed -n '/^\.SH EXAMPLE$/,/^\.EE$/p' "$mans/tweedstork.3" |
        sed -e '1,/^\.EX$/d' -e '/^\.EE$/d' -e 's/\\-/-/g' -e "s/\\\\(aq/'/g" -e 's/\\e/\\/g' >"$files/example.c"
    [ -s "$files/example.c" ] || fail "tweedstork(3) has no example"
    "${CC:-cc}" -std=c99 "${warnings[@]}" "$files/example.c" tests/manual.c "${flags[@]}" -o "$files/example"
    timeout 60 "$files/example" || fail "the example of tweedstork(3) does not end, or does something else than it should"
}

# Paths with blanks, and a folder of its own for the archive. Others have files there, one with a name like ours.
there=$files/there prefix=$files/there/a\ prefix libdir=$files/there/a\ libdir mans=$files/there/a\ prefix/share/man/man3
theirs=("a prefix/include/other.h" "a prefix/share/man/man3/tweedstork_other.3" "a libdir/libother.a" "a libdir/pkgconfig/other.pc")
for file in "${theirs[@]}"; do install -D -m 644 /dev/null "$there/$file"; done
must_make install PREFIX="$prefix" LIBDIR="$libdir"
must_make install PREFIX="$prefix" LIBDIR="$libdir" # once more over the first
{ ours 'a prefix' 'a libdir'; printf '%s\n' "${theirs[@]}"; } | has_exactly "$there" "make install with LIBDIR: wrong files"
flags=$(PKG_CONFIG_PATH=$libdir/pkgconfig pkg-config --cflags --libs tweedstork)
eval "flags=($flags)" # pkg-config writes the blanks as a shell reads them
check_files
check_pages
check_layout
run_readme
run_example
must_make uninstall PREFIX="$prefix" LIBDIR="$libdir"
grep -qx "removed $(ours a b | wc -l) files of tweedstork from $prefix" "$files/log" || fail "make uninstall says $(cat "$files/log")"
printf '%s\n' "${theirs[@]}" | has_exactly "$there" "make uninstall: wrong files are left"

# A packager's: the pkg-config file doesn't know of DESTDIR.
must_make install DESTDIR="$files/stage" PREFIX=/opt/ours
ours opt/ours opt/ours/lib | has_exactly "$files/stage" "make install with DESTDIR: wrong files"
flags=$(PKG_CONFIG_PATH=$files/stage/opt/ours/lib/pkgconfig pkg-config --cflags --libs tweedstork)
[ "${flags% }" = '-I/opt/ours/include -L/opt/ours/lib -ltweedstork' ] || fail "the pkg-config file says $flags"
must_make uninstall DESTDIR="$files/stage" PREFIX=/opt/ours
has_exactly "$files/stage" "make uninstall with DESTDIR: wrong files are left" </dev/null

touch -d 2000-01-01 "$files/archive.a"
if run_make install PREFIX="$files/stale" || [ -e "$files/stale" ]; then fail "make install takes an archive that is older than its sources"; fi
touch "$files/archive.a"
for place in PREFIX= PREFIX=here LIBDIR=lib; do
    if run_make install DESTDIR="$files/refused" "$place" || [ -e "$files/refused" ]; then fail "make install takes $place"; fi
done
echo "install: $(functions | wc -l) functions with their man pages; README.md's program and the man page's example run over what was installed"
