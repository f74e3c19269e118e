#!/usr/bin/env bash
# The example programs, run on inputs of documents 01 and 02 and RFC 8461: what they print last, or all of it, is what the papers give.
# Usage: examples.sh FOLDER, where the programs are
set -euo pipefail
[ $# -eq 1 ] || { echo "usage: $0 FOLDER, where the programs are" >&2; exit 2; }
cd "$(dirname "$0")/.."
programs=$1
files=$(mktemp -d)
trap 'rm -rf "$files"' EXIT
failed=0

expect() { # expect LAST-LINE PROGRAM ARGUMENT..
    local want=$1 program=$2 got
    shift 2
    got=$("$programs/$program" "$@" 2>&1 | tail -n 1) || true
    if [ "$got" != "$want" ]; then
        echo "$program $*: expected '$want', got '$got'"
        failed=1
    fi
}

# The numbers that the library answers with, one after another, by documents 01 and 02.
answers() { # answers NUMBERS SCENARIO..
    local want=$1 got
    shift
    got=$("$programs/relay" "$@" 2>&1 | grep -o 'library [0-9]*:' | tr -dc '0-9\n' | paste -sd' ') || true
    if [ "$got" != "$want" ]; then
        echo "relay $*: expected $want, got $got"
        failed=1
    fi
}

# The lines on which policy each message has.
policies() { # policies LINES SCENARIO
    local got
    got=$("$programs/relay" "$2" 2>&1 | grep -E '^(relay: (keeps the policy|policy from|no policy)|network: policy)' | paste -sd'|') || true
    if [ "$got" != "$1" ]; then
        echo "relay $2: expected $1, got $got"
        failed=1
    fi
}

# Each scenario of examples/scenarios.
scenario() { # scenario NAME NUMBERS
    answers "$2" "examples/scenarios/$1.txt"
    scenarios=$((scenarios + 1))
}

scenarios=0
scenario dane '8 14 10 11 12 3 3'
scenario mta-sts '8 10 11 12 4 4'
scenario both '8 14 10 11 12 5 5'
scenario stripped '8 14 10 24 8 14 10 11 12 3 3'
scenario tlsa-failed '8 14 22 31'
scenario stale-policy '8 10 11 2 2'
scenario wrong-certificate '8 10 11 12 27 8 23 31'
scenario wrong-key '8 13 10 11 12 26 31'
scenario cleartext '8 10 1 1'
scenario mx-failed '30'
scenario connection-lost '8 10 8 10 11 2 2'
scenario aliased-domain '8 14 10 11 12 26 8 14 10 11 12 3 3'
scenario old-tls '8 14 10 11 28 8 14 10 11 12 3 3 8 10 11 2 2'
scenario stale-digest '8 14 10 11 12 26 8 14 10 11 12 3 3'
scenario second-name '8 10 11 12 4 4'
scenario malformed-certificate '8 14 10 11 12 90 8 14 10 11 12 3 3'
scenario cached-policy '72 6 7 15 8 10 11 12 4 4 15 6 8 10 11 12 4 4'
scenario policy-renewed '72 6 7 15 8 10 11 12 4 4 15 6 7 15 8 10 11 12 4 4 15 6 8 10 11 12 4 4'
scenario policy-fetch-failed '72 6 7 15 8 10 11 12 4 4 15 6 8 10 24 31'
if [ "$scenarios" -ne "$(ls examples/scenarios | wc -l)" ]; then
    echo "examples/scenarios has a file that isn't tested"
    failed=1
fi
expect 'relay: sends the message to backup.example.com, over the TLS connection whose certificate passed' relay examples/scenarios/stripped.txt
expect 'relay: sends the message to mail.example.com, in cleartext' relay examples/scenarios/cleartext.txt
expect 'relay: keeps the message and tries again later' relay examples/scenarios/tlsa-failed.txt
expect "cannot open the scenario $files/missing" relay "$files/missing"
printf 'clock 1\nnext-hop example.com\nmx secure\nhost 10 mail.example.com\naddress sure\n' >"$files/address"
expect "$files/address, line 5: not understood" relay "$files/address"
printf 'clock 1\nnext-hop example.com\nmx secure\nhost 10 mail..example.com\naddress secure\n' >"$files/name"
expect 'relay: keeps the message and tries again later' relay "$files/name"
sed -e '/^host/i host 5 mail_.example.com\n address secure' examples/scenarios/dane.txt >"$files/odd"
expect 'relay: sends the message to mail.example.com, over the TLS connection whose certificate passed' relay "$files/odd"
printf 'clock 1\nnext-hop example..com\nmx secure\nhost 10 mail.example.com\naddress secure\n' >"$files/hop"
expect 'relay: returns the message, since its next-hop is no name' relay "$files/hop"
answers '8 60' "$files/hop"
# Document 02, No. 3: the domain that the next-hop is an alias of counts where it is given, is a name, and MX was secure.
aliased() { # aliased SED-EDIT: of the scenario with the alias, into $files/alias
    sed "$1" examples/scenarios/aliased-domain.txt >"$files/alias"
}
expect 'relay: sends the message to mx10.example.com, over the TLS connection whose certificate passed' relay examples/scenarios/aliased-domain.txt
aliased '/^expanded-next-hop/d'
answers '8 14 10 11 12 26 8 14 10 11 12 26 31' "$files/alias"
aliased 's/^mx .*/mx insecure/'
answers '8 14 10 11 12 26 8 14 10 11 12 26 31' "$files/alias"
aliased 's/^expanded-next-hop .*/expanded-next-hop _shop.example/'
answers '8 60 14 10 11 12 26 8 60 14 10 11 12 26 31' "$files/alias"
aliased 's/^expanded-next-hop .*/expanded-next-hop _shop.example/; s/dns-id mail.example.net/dns-id exchange.example.org/'
answers '8 60 14 10 11 12 3 3' "$files/alias"
aliased 's/^expanded-next-hop .*/expanded-next-hop _shop.example/; s/^next-hop .*/next-hop my_shop.example/'
answers '8 60 60' "$files/alias"
expect 'relay: returns the message, since its next-hop is no name' relay "$files/alias"
aliased 's/dns-id mail.example.net/dns-id exchange.example.org/'
answers '8 14 10 11 12 3 3' "$files/alias"
# Document 02, No. 6: where authentication is needed, TLS below 1.2 is 28, before certificates are asked for; elsewhere any will do.
handshake() { # handshake OUTCOME SCENARIO [SED-EDIT]: the scenario with this outcome of each handshake, into $files/handshake
    sed -e "s/^    handshake .*/    handshake $1/" -e "${3-}" "examples/scenarios/$2.txt" >"$files/handshake"
}
shakes() { # shakes OUTCOME NUMBERS SCENARIO [SED-EDIT]
    handshake "$1" "$3" "${4-}"
    answers "$2" "$files/handshake"
}
for version in 1.0 1.1; do
    shakes "established TLS $version" '8 14 10 11 28 31' dane
    expect 'relay: keeps the message and tries again later' relay "$files/handshake"
    shakes "established TLS $version" '8 10 11 28 31' mta-sts
    shakes "established TLS $version" '8 14 10 11 28 31' both
    shakes "established TLS $version" '8 13 10 11 28 31' wrong-key
    shakes "established TLS $version" '8 10 11 28 8 23 31' wrong-certificate
    shakes "established TLS $version" '8 14 22 31' tlsa-failed
    shakes "established TLS $version" '8 10 11 2 2' stale-policy
    shakes "established TLS $version" '8 14 10 11 2 2' dane 's/record 3 1 1/record 1 1 1/' # unusable: TLS is needed, and no more
    expect 'relay: sends the message to mail.example.com, over TLS, whoever the server is' relay "$files/handshake"
done
for version in 1.2 1.3; do
    shakes "established TLS $version" '8 14 10 11 12 3 3' dane
    shakes "established TLS $version" '8 10 11 12 4 4' mta-sts
    shakes "established TLS $version" '8 14 10 11 12 5 5' both
    shakes "established TLS $version" '8 13 10 11 12 26 31' wrong-key
    shakes "established TLS $version" '8 10 11 12 27 8 23 31' wrong-certificate
    shakes "established TLS $version" '8 14 10 11 12 3 3 8 10 11 2 2' old-tls
done
shakes failed '8 14 10 11 25 31' dane
shakes failed '8 10 11 25 31' mta-sts
shakes failed '8 10 11 1 1' stale-policy
expect 'relay: sends the message to mail.example.net, over TLS, whoever the server is' relay examples/scenarios/old-tls.txt
for words in '' established 'established TLS' 'established TLS 1.4' 'established TLS 0304' 'established SSL 1.3' 'established 1.3' 'established TLS 1.2 1.3' 'failed TLS 1.2'; do
    handshake "$words" stale-policy
    expect "$files/handshake, line 16: not understood" relay "$files/handshake"
done
# Document 02, No. 7: the library reads the names in the leaf. A leaf that it refuses leaves the host out, whatever else there is.
expect 'relay: sends the message to mail.example.com, over the TLS connection whose certificate passed' relay examples/scenarios/second-name.txt
expect 'relay: sends the message to backup.example.com, over the TLS connection whose certificate passed' relay examples/scenarios/malformed-certificate.txt
named() { # named NUMBERS SCENARIO SED-EDIT: of the names in the leaf
    sed "$3" "examples/scenarios/$2.txt" >"$files/names"
    answers "$1" "$files/names"
}
named '8 10 11 12 27 31' second-name '/dns-id mail.example.com/d'
named '8 10 11 12 27 31' second-name '/dns-id/d; s/common-name .*/common-name mail.example.com/'
named '8 10 11 12 65' second-name "s/dns-id mail.example.net/dns-id $(printf '%0256d' 0)/"
named '8 10 11 12 4 4' second-name "s/dns-id mail.example.net/dns-id $(printf '%0255d' 0)/"
for count in 63 64; do
    sed '/^ *dns-id mail.example.net/d' examples/scenarios/second-name.txt >"$files/many-names"
    for ((i = 0; i < count; i++)); do echo "    dns-id n$i.example" >>"$files/many-names"; done
    answers "$([ $count -eq 63 ] && echo '8 10 11 12 4 4' || echo '8 10 11 12 91')" "$files/many-names"
done
named '8 14 10 11 12 90' malformed-certificate "/^host 20/,\$d"
expect 'relay: keeps the message and tries again later' relay "$files/names"
# Document 02, No. 8: of usable records with one usage and selector SHA-256 is ignored beside SHA-512, and type 0 always counts.
expect 'relay: sends the message to backup.example.com, over the TLS connection whose certificate passed' relay examples/scenarios/stale-digest.txt
records() { # records NUMBERS SED-EDIT [SCENARIO]: of the records and digests
    sed "$2" "examples/scenarios/${3-stale-digest}.txt" >"$files/records"
    answers "$1" "$files/records"
}
records '8 14 10 11 12 26 8 14 10 11 12 3 3' '/record 3 1 1/{h;d}; /record 3 1 2/G' # in the other order
records '8 14 10 11 12 26 8 14 10 11 12 3 3' '/record 3 1 1/d'
records '8 14 10 11 12 26 8 14 10 11 12 26 31' 's/record 3 1 2 22/record 3 1 2 33/'
expect 'relay: keeps the message and tries again later' relay "$files/records"
records '8 14 10 11 12 3 3' '/record 3 1 2/d' # what SHA-256 alone names
records '8 14 10 11 12 3 3' 's/record 3 1 2/record 3 0 2/' # another selector
records '8 14 10 11 12 3 3' 's/record 3 1 2/record 2 1 2/' # another usage
for unusable in '1 1 2 22*64' '3 2 2 22*64' '3 1 3 22*64' '3 1 2 22*63' '3 1 2 22*65' '3 1 2 22*32'; do
    records '8 14 10 11 12 3 3' "s/record 3 1 2 .*/record $unusable/"
done
records '8 14 10 11 12 3 3' 's/record 3 1 1 .*/record 3 1 0 3000/' # the key info of each leaf here
records '8 14 10 11 12 3 3' 's/record 3 1 1 .*/&\n    record 3 1 0 3000/'
records '8 14 10 11 12 3 3' 's/record 3 1 2 .*/&\n    record 3 1 2 11*64/' # one SHA-512 record of several
records '8 14 10 11 12 26 31' 's/record 2 1 1 .*/&\n    record 2 1 2 33*64/' both # a policy that passes is no help
records '8 14 10 11 12 5 5' 's/record 2 1 1 .*/&\n    record 2 1 2 33*64/; s/certificate yes 22.*/& 33*64/' both
records '8 14 10 11 12 5 5' 's/record 2 1 1 .*/&\n    record 3 1 2 33*64/' both
at_host='\n    tlsa secure\n    record' # at the second name stands another set
records '8 13 10 11 12 3 3' "s/record 3 .*/record 3 1 1 22*32$at_host 3 1 2 33*64/" wrong-key
records '8 13 10 11 12 26 31' "s/record 3 .*/record 3 1 2 33*64$at_host 3 1 1 22*32/" wrong-key
records '8 13 14 10 11 12 3 3' "s/expanded secure/expanded insecure/; s/record 3 .*/record 3 1 2 33*64$at_host 3 1 1 22*32/" wrong-key
for words in 'yes 11*32 22*63' 'yes 11*32 22*65' 'yes 11*31 22*64' 'yes 11*32 22*64 33*64' 'yes 11*32 x'; do
    sed "s/certificate .*/certificate $words/" examples/scenarios/cached-policy.txt >"$files/records"
    expect "$files/records, line 21: not understood" relay "$files/records"
done
expect 'relay: sends the message to backup.example.com, over TLS, whoever the server is' relay examples/scenarios/connection-lost.txt
printf 'clock 1\nnext-hop example.com\nmx insecure\nhost 10 mail.example.com\naddress insecure\nconnection lost\n' >"$files/lost"
expect 'relay: keeps the message and tries again later' relay "$files/lost"
printf 'clock 253402300800\nnext-hop example.com\nmx insecure\nhost 10 mail.example.com\naddress insecure\n' >"$files/clock"
expect 'relay: keeps the message, since it made a mistake of its own' relay "$files/clock"
printf 'clock 1\nnext-hop example.com\nmx insecure\nhost 10 mail.example.com\naddress insecure\n' >"$files/silent"
expect "relay: the scenario doesn't say it of mail.example.com" relay "$files/silent"

# Policies: from the cache while the TXT record's id is the same, and where nothing new can be had (RFC 8461, 3.1 and 5.1).
kept='network: policy fetched|relay: keeps the policy in the cache, id 20231114'
cached='relay: policy from the cache, fetched at 1700000000, id 20231114'
policies "$kept|$cached" examples/scenarios/cached-policy.txt
policies "$kept|network: policy fetched|relay: keeps the policy in the cache, id 20231115|relay: policy from the cache, fetched at 1700086400, id 20231115" examples/scenarios/policy-renewed.txt
policies "$kept|network: policy not fetched|$cached" examples/scenarios/policy-fetch-failed.txt
expect 'relay: keeps the message and tries again later' relay examples/scenarios/policy-fetch-failed.txt
change() { # change SED-EDIT: of the scenario with the failed fetch, into $files/policy
    sed "$1" examples/scenarios/policy-fetch-failed.txt >"$files/policy"
}
change 's/^txt      id=forged/txt none/'
policies "$kept|$cached" "$files/policy"
answers '72 6 7 15 8 10 11 12 4 4 15 40 8 10 24 31' "$files/policy"
change 's/^txt      id=forged/txt id=20231114a/'
policies "$kept|network: policy not fetched|$cached" "$files/policy"
change 's/^fetch    failed/fetch answered\n| version: STSv1/'
policies "$kept|network: policy fetched|$cached" "$files/policy"
answers '72 6 7 15 8 10 11 12 4 4 15 6 52 8 10 24 31' "$files/policy"
change 's/^clock    1700003600/clock 1700604799/'
policies "$kept|network: policy not fetched|$cached" "$files/policy"
change 's/^clock    1700003600/clock 1700604800/' # stale, and so none
policies "$kept|network: policy not fetched|relay: no policy" "$files/policy"
answers '72 6 7 15 8 10 11 12 4 4 72 6 8 10 1 1' "$files/policy"
change 's/^fetch    failed//'
expect "relay: the scenario doesn't say it of example.com" relay "$files/policy"
change 's/^next-hop.*/next-hop example..com/'
answers '60 8 60 60 8 60' "$files/policy"
change 's/^clock .*/clock 253402300800/'
answers '62 8 67' "$files/policy" # a lookup that is refused is not "no policy"
expect 'relay: keeps the message, since it made a mistake of its own' relay "$files/policy"
change "s/^| max_age.*/&\n| note: $(printf '%0600d' 0)\n| note: $(printf '%0500d' 0)/" # over 1,024 bytes: used, and not kept
answers '72 6 7 71 8 10 11 12 4 4 72 6 8 10 1 1' "$files/policy"
# Each scenario begins with an empty cache.
answers '72 6 7 15 8 10 11 12 4 4 15 6 8 10 24 31 72 6 7 15 8 10 11 12 4 4 15 6 8 10 11 12 4 4' examples/scenarios/{policy-fetch-failed,cached-policy}.txt
printf 'clock %d\n' 1 2 3 4 5 >"$files/many"
expect "$files/many, line 5: not understood" relay "$files/many"
printf 'next-hop example.com\nclock 1\n' >"$files/early"
expect "$files/early, line 1: not understood" relay "$files/early"
printf '| version: STSv1\nclock 1\n' >"$files/early"
expect "$files/early, line 1: not understood" relay "$files/early"
echo '# nothing' >"$files/nothing"
expect "$files/nothing: no message" relay "$files/nothing"

# RFC 8461, 3.1 and 3.2
domain=examples/domain
expect 'policy: answer 7: mode enforce, for 604800 seconds, with 3 mx patterns' discover $domain/records.txt $domain/policy.txt
printf 'v=STSv1; id=1\nv=STSv1; id=2\n' >"$files/two"
expect "records: answer 41: refused: several TXT records begin with 'v=STSv1;'" discover "$files/two" $domain/policy.txt
printf 'v=STSv1; id=%0300d;\n' 1 >"$files/long"
expect "records: answer 42: refused: the TXT record that begins with 'v=STSv1;' is malformed" discover "$files/long" $domain/policy.txt
: >"$files/none"
expect "records: answer 40: refused: no TXT record begins with 'v=STSv1;'" discover "$files/none" $domain/policy.txt

# Document 02, No. 2: what is wrong with a policy, the line's number and the line itself.
wrong() { # wrong NUMBER LAST-LINE BODY, as printf takes it
    local got
    printf "$3" >"$files/wrong"
    expect "$2" discover $domain/records.txt "$files/wrong"
    got=$("$programs/discover" $domain/records.txt "$files/wrong") || true
    if [[ $got != *$'\n'"policy: answer $1: refused: "* ]]; then
        echo "discover: expected answer $1 for '$3', got $got"
        failed=1
    fi
}
expect 'policy: line 3, at byte 29: "mx: mail.example.com."' discover $domain/records.txt $domain/wrong-policy.txt
wrong 53 'policy: line 1, at byte 0: ""' ''
wrong 53 'policy: line 3, at byte 31: ""' 'version: STSv1\r\nmode: testing\r\n\n'
wrong 53 'policy: line 3, at byte 31: "# "' 'version: STSv1\r\nmode: testing\r\n# \r\n'
wrong 53 'policy: line 3, at byte 29: "mx : a.example"' 'version: STSv1\nmode: testing\nmx : a.example\nmax_age: 1\n'
wrong 53 'policy: line 2, at byte 15: "x: \x01\x22\x5c\xff"' 'version: STSv1\nx: \001"\\\377\r\nmode: none\n'
wrong 53 'policy: line 1, at byte 0: "version: STSv1\x0d"' 'version: STSv1\r'
wrong 54 'policy: line 1, at byte 0: "version: STSv2"' 'version: STSv2\r\nmode: none\r\n'
wrong 55 'policy: line 2, at byte 16: "mode: enforced"' 'version: STSv1\r\nmode: enforced\r\n'
wrong 56 'policy: line 3, at byte 26: "max_age: 1 week"' 'version: STSv1\nmode: none\nmax_age: 1 week'
wrong 57 'policy: line 2, at byte 15: "mx: *.*.example.com"' 'version: STSv1\nmx: *.*.example.com\nbroken\n'
wrong 57 "policy: line 1, at byte 0: \"mx: $(printf '%096d' 0)\" and so on, 304 bytes" "mx: $(printf '%0300d' 0)\n"
printf 'version: STSv1\nmode: none\n' >"$files/short"
expect 'policy: answer 52: refused: the policy lacks version, mode, max_age or mx' discover $domain/records.txt "$files/short"
expect "discover: cannot read $files/missing (at most 100000 bytes)" discover $domain/records.txt "$files/missing"

# Document 02, No. 5: what a domain publishes.
publication() { # publication ID POLICY: all that is printed for them
    cat <<END
1. Serve these lines at https://mta-sts.DOMAIN/.well-known/mta-sts.txt, as
   text/plain and with no empty line at either end:

$2

2. Only then put this line into DOMAIN's zone, in the place of an older one:
   a sender that sees a new id fetches the file at once.

_mta-sts IN TXT "v=STSv1; id=$1;"
END
}
publishes() { # publishes ID POLICY ARGUMENT..: leaves what is printed in $files/printed
    local id=$1 policy=$2 status=0
    shift 2
    "$programs/publish" "$@" >"$files/printed" 2>&1 || status=$?
    if [ "$status" -ne 0 ] || ! diff <(publication "$id" "$policy") "$files/printed"; then
        echo "publish $*: status $status, and more or less than expected (<)"
        failed=1
    fi
}
says() { # says STATUS BEGINNING ARGUMENT..: on standard error, and nothing is printed
    local wanted=$1 beginning=$2 status=0 printed said
    shift 2
    printed=$("$programs/publish" "$@" 2>"$files/said") || status=$?
    said=$(<"$files/said")
    if [ "$status" -ne "$wanted" ] || [ -n "$printed" ] || [[ $said != "$beginning"* ]]; then
        echo "publish $*: expected $wanted and '$beginning', got $status and '$said' beside '$printed'"
        failed=1
    fi
}
refuses() { # refuses NUMBER ABOUT ARGUMENT..
    local number=$1 about=$2
    shift 2
    says 1 "publish: $about: answer $number: refused: " "$@"
}
# The file that the administrator copies.
policy_printed() { sed -n '/^version: /,/^max_age: /p' "$files/printed"; }
same() { # same FILE FILE WORDS
    if ! cmp "$1" "$2"; then
        echo "publish: $3"
        failed=1
    fi
}

rfc=(enforce 604800 mail.example.com '*.example.net' backupmx.example.com)
tr -d '\r' <$domain/policy.txt >"$files/rfc"
publishes 20160831085700Z "$(<"$files/rfc")" --id 20160831085700Z "${rfc[@]}"
shown=$(awk '/^    \$ target\/c\/publish/ { shown = 1; next } shown && /^[^ ]/ { exit } shown { sub(/^    /, ""); print }' README.md)
if ! diff <(echo "$shown") "$files/printed"; then
    echo "README.md shows (<) what publish does not print"
    failed=1
fi
policy_printed >"$files/policy.txt"
same "$files/rfc" "$files/policy.txt" "the policy of RFC 8461 has other bytes"
sed -n 's/^_mta-sts IN TXT "\(.*\)"$/\1/p' "$files/printed" >"$files/records.txt"
expect 'policy: answer 7: mode enforce, for 604800 seconds, with 3 mx patterns' discover "$files/records.txt" "$files/policy.txt"
for policy in "$files/policy.txt" $domain/policy.txt; do
    publishes 1 "$(<"$files/rfc")" --id 1 --rewrite "$policy"
    same "$files/rfc" <(policy_printed) "the policy of RFC 8461 has other bytes when it is written anew"
done
publishes a1 $'version: STSv1\nmode: testing\nmx: Mail.Example.COM\nmax_age: 31557600' --id a1 testing 31557600 Mail.Example.COM
publishes a1 $'version: STSv1\nmode: none\nmax_age: 0' --id a1 none 0
publishes a1 $'version: STSv1\nmode: none\nmx: a\nmax_age: 86400' --id a1 none 0086400 a
printf 'max_age: 9999999999\r\nmx:b.example\r\nnote: x\r\nmode: testing\r\nmx: *.A\r\nversion: STSv1' >"$files/old"
publishes b2 $'version: STSv1\nmode: testing\nmx: b.example\nmx: *.A\nmax_age: 31557600' --id b2 --rewrite "$files/old"
policy_printed >"$files/policy.txt"
publishes b3 "$(<"$files/policy.txt")" --id b3 --rewrite "$files/policy.txt"

# The longest policy and record.
label=$(printf '%063d' 0)
wildcard="*.$label.$label.$label.${label:2}"
mapfile -t sixteen < <(for _ in {1..16}; do echo "$wildcard"; done)
publishes 20160831085700Zabcdefghijklmnopq $'version: STSv1\nmode: enforce\n'"$(printf 'mx: %s\n' "${sixteen[@]}")"$'\nmax_age: 31557600' \
    --id 20160831085700Zabcdefghijklmnopq enforce 31557600 "${sixteen[@]}"
if [ "$(policy_printed | wc -c)" -ne 4207 ]; then
    echo "publish: the longest policy has not 4,207 bytes"
    failed=1
fi

# Without --id it is the present time, which is accepted as an id.
before=$(date -u +%Y%m%d%H%M%SZ)
"$programs/publish" "${rfc[@]}" >"$files/printed" || failed=1
sed -n 's/^_mta-sts IN TXT "\(.*\)"$/\1/p' "$files/printed" >"$files/records.txt"
policy_printed >"$files/policy.txt"
expect 'policy: answer 7: mode enforce, for 604800 seconds, with 3 mx patterns' discover "$files/records.txt" "$files/policy.txt"
now=$(sed 's/^v=STSv1; id=\(.*\);$/\1/' "$files/records.txt")
if [[ ! $now =~ ^[0-9]{14}Z$ || $now < $before || $now > $(date -u +%Y%m%d%H%M%SZ) ]]; then
    echo "publish: the id $now is not the present time"
    failed=1
fi

if "$programs/publish" "${rfc[@]}" >/dev/full 2>"$files/said"; then
    echo "publish: a full disk goes unnoticed"
    failed=1
fi
refuses 80 'id "2016-08-31"' --id 2016-08-31 "${rfc[@]}"
refuses 80 'id ""' --id '' "${rfc[@]}"
refuses 80 'id "20160831085700Zabcdefghijklmnopqr"' --id 20160831085700Zabcdefghijklmnopqr --rewrite $domain/policy.txt
refuses 81 '0 patterns' enforce 604800
refuses 81 '0 patterns' testing 604800
refuses 81 'pattern 2, "mail.example.com."' enforce 604800 mail.example.com mail.example.com. -
refuses 81 'pattern 1, ""' none 604800 ''
refuses 81 '17 patterns' none 604800 "${sixteen[@]}" a
mapfile -t thousand < <(seq 1000)
refuses 81 '1000 patterns' enforce 604800 "${thousand[@]}"
refuses 81 'pattern 1000, "1000-"' enforce 604800 "${thousand[@]/%1000/1000-}"
refuses 81 'pattern 1, "*.n'"$wildcard\"" enforce 604800 "*.n$wildcard"
refuses 82 'lifetime 31557601' enforce 31557601 a
refuses 82 'lifetime 18446744073709551615' none 18446744073709551615
refuses 57 "$domain/wrong-policy.txt, line 3" --rewrite $domain/wrong-policy.txt
refuses 53 "$files/none, line 1" --rewrite "$files/none"
refuses 52 "$files/short" --rewrite "$files/short"
{ cat "$files/rfc"; printf 'mx: %s\n' {a..n}; } >"$files/seventeen"
refuses 81 "$files/seventeen, 17 patterns" --rewrite "$files/seventeen"
for size in 65537 200000; do
    printf '%s\nnote: %0*d' "$(<"$files/rfc")" "$size" 0 >"$files/large"
    truncate -s "$size" "$files/large"
    refuses 50 "$files/large" --rewrite "$files/large"
done
truncate -s 65536 "$files/large"
publishes c1 "$(<"$files/rfc")" --id c1 --rewrite "$files/large"

usage='usage: publish [--id ID] MODE LIFETIME [PATTERN ...]'
says 2 "$usage"
says 2 "$usage" enforce
says 2 "$usage" Enforce 1 a
says 2 "$usage" '' 1 a
for number in '' -1 +1 ' 1' 1s 0x10 1.5 18446744073709551616 99999999999999999999999; do
    says 2 "$usage" enforce "$number" a
done
says 2 "$usage" --id
says 2 "$usage" --id a1
says 2 "$usage" --rewrite
says 2 "$usage" --rewrite $domain/policy.txt a
says 2 "$usage" --rewrite $domain/policy.txt --id a1
says 2 "publish: cannot read $files/missing" --rewrite "$files/missing"
says 2 "publish: cannot read $files" --rewrite "$files"

# Document 02, No. 7: what a certificate says, or where it is malformed.
prints() { # prints STATUS TEXT FILE: all that is printed of a certificate; of a long line the front will do
    local status=0 got
    got=$("$programs/certificate" "$3" 2>&1) || status=$?
    if [ "$status" -ne "$1" ] || [ "$(sed 's/: refused: .*/: refused/' <<<"$got")" != "$2" ]; then
        echo "certificate $3: expected $1 and '$2', got $status and '$got'"
        failed=1
    fi
}
malformed() { # malformed WHERE FILE
    prints 1 $'certificate: answer 90: refused\n'"certificate: at byte $1" "$2"
}
bytes() { # bytes HEX: as they are
    # shellcheck disable=SC2059 # the bytes are the format
    printf "$(sed 's/../\\x&/g' <<<"$1")"
}
element() { # element TAG HEX: with its length, of up to two bytes, before it
    local length=$((${#2} / 2))
    if [ $length -lt 128 ]; then printf '%s%02x%s' "$1" $length "$2"
    elif [ $length -lt 256 ]; then printf '%s81%02x%s' "$1" $length "$2"
    else printf '%s82%04x%s' "$1" $length "$2"; fi
}
naming() { # naming HEX: a certificate with these GeneralNames, all other fields as short as they can be, into $files/made.der
    local extension signed
    extension=$(element 30 "0603551d11$(element 04 "$(element 30 "$1")")")
    signed=$(element 30 "02010130003000300030003000$(element a3 "$(element 30 "$extension")")")
    bytes "$(element 30 "${signed}3000030100")" >"$files/made.der"
}
leaf=examples/certificates/leaf.pem
said='certificate: answer 15: done
DNS-ID 1, at byte 319: "mail.example.com"
DNS-ID 2, at byte 337: "mx.example.net"
common name, at byte 142: "mail.example.com"
public key info, at byte 158: 91 bytes'
prints 0 "$said" $leaf
shown=$(awk '/^    \$ target\/c\/certificate examples\/certificates\/leaf.pem/ { shown = 1; next } shown && !/^    [^$]/ { exit } shown { sub(/^    /, ""); print }' README.md)
if [ -n "$shown" ] && [ "$shown" != "$said" ]; then
    echo "README.md shows what certificate does not print: $shown"
    failed=1
fi
malformed '335 of 512: 30 19 06 03 55 1d 11 04 12 30 10 82 0e 6d 78 2e and so on' examples/certificates/split-names.pem
sed '/^-/d' $leaf | base64 -d >"$files/leaf.der"
prints 0 "$said" "$files/leaf.der"
{ echo 'Certificate: of a mail server'; sed 's/$/\r/' $leaf; cat examples/certificates/split-names.pem; } >"$files/several.pem"
prints 0 "$said" "$files/several.pem"
sed '2s/./-/' $leaf >"$files/broken.pem"
prints 2 "certificate: $files/broken.pem has something else than base64 between its lines of PEM" "$files/broken.pem"
head -c 500 "$files/leaf.der" >"$files/cut.der"
malformed '0 of 500: 30 82 01 f1 30 82 01 97 a0 03 02 01 02 02 02 12 and so on' "$files/cut.der"
{ cat "$files/leaf.der"; printf 'more'; } >"$files/more.der"
malformed '501 of 505: 6d 6f 72 65' "$files/more.der"
malformed '0 of 0: the end' "$files/none"
naming "$(element 82 6101225cff)$(element 82 '')$(element 87 c0000201)"
prints 0 $'certificate: answer 15: done\nDNS-ID 1, at byte 34: "a\\x01\\x22\\x5c\\xff"\nDNS-ID 2, at byte 41: ""\npublic key info, at byte 15: 2 bytes' "$files/made.der"
naming "$(element 82 "$(printf '61%.0s' {1..300})")"
prints 0 $'certificate: answer 15: done\nDNS-ID 1, at byte 50: "'"$(printf 'a%.0s' {1..100})"$'" and so on, 300 bytes\npublic key info, at byte 19: 2 bytes' "$files/made.der"
naming "$(for _ in {1..65}; do element 82 61; done)"
prints 1 'certificate: answer 91: refused' "$files/made.der"
naming "$(for _ in {1..64}; do element 82 61; done)"
expect 'public key info, at byte 17: 2 bytes' certificate "$files/made.der"
expect 'usage: certificate FILE' certificate
prints 2 "certificate: cannot read $files/missing (at most 1000000 bytes)" "$files/missing"
prints 2 "certificate: cannot read $files (at most 1000000 bytes)" "$files"

[ "$failed" -eq 0 ] && echo "examples: as expected"
exit "$failed"
