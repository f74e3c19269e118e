#!/usr/bin/env bash
# Each must-fail edit is refused, and because a fact no longer holds: not because the prover met a limit, and not only because a proof
# file names what the edit took away, which shows nothing.
# Usage: must-fail.sh LOG, which has what `rt ci` said: a line for each edit, with its first error about a fact, and at its end 'rt: ok'
set -euo pipefail
[ $# -eq 1 ] || { echo "usage: $0 LOG" >&2; exit 2; }
log=$(realpath "$1")
cd "$(dirname "$0")/.."

edits=0 failed=0
complain() { echo "must-fail: $1"; failed=1; }

for edit in crates/*/must-fail/*; do
    name=$(basename "$(dirname "$(dirname "$edit")")")/$(basename "$edit")
    edits=$((edits + 1))
    line=$(grep -F -m 1 "rt: must-fail $name: " "$log" || true)
    case ${line#"rt: must-fail $name: "} in
    'refused, as it must be: '*': error: '* | 'refused, as it must be: note: '*': it is not proved that '*) ;;
    *) complain "${line:-$name: the log has no line of it}" ;;
    esac
done
last=$(grep '^rt: ok;' "$log" || true)
[[ $last == *"; must-fail edits: $edits refused;"* ]] || complain "of $edits edits not every one is refused: ${last:-the log has no line 'rt: ok'}"
[ "$failed" = 0 ] && echo "must-fail: $edits edits, each refused because a fact no longer holds"
exit "$failed"
