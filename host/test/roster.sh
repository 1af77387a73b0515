#!/usr/bin/env bash
# A changed roster, and a changed number of slots, with live entries: taken, or refused by the rule that stands against it. By a
# restart and by SIGHUP. No entry is lost either way.
. "$(dirname "$0")/lib.sh"
alone

roster() { printf '%s\n' "$@" >"$work/roster"; }
# listed: the listed addresses as --show has them, "ADDRESS SHARE LIMIT" each
listed() { show | awk '/^listed/ { on = 1; next } /^[^ ]/ { on = 0 } on && $1 != "ADDRESS" { print $1, $2, $3 }'; }
slots() { show | sed -n 's/^slots: \([0-9]*\),.*/\1/p'; }
# kept WHAT: the entries and what they have left are as they were
kept() {
    is "$1: entries" "$(entries)" "$before"
    lives "$1: the sign's life" "$(left 18531)" 7200 $since
    lives "$1: a tablet's life" "$(left 18511)" 3600 $since
}
# again WHAT LINE [OPTION..]: kill -9, restart, and this line said; entries kept
again() {
    end 9
    start --state "$table" "${@:3}"
    logged "$1, by a restart" "llqd: $2"
    kept "$1, by a restart"
}
# reload WHAT LINE: SIGHUP, and this line said; entries kept
reload() {
    : >"$log"
    kill -HUP $host
    logged "$1, by SIGHUP" "llqd: $2"
    settled
    kept "$1, by SIGHUP"
}
# wait until a save that is under way is over: a reply to a change is sent after it
settled() {
    set -- $(llq 127.0.0.4 18541 settle.example 1 0 60)
    is 'a setup' "${1:-}" 0
    is 'its response' "$(llq 127.0.0.4 18541 settle.example 1 $2 60 | cut -d ' ' -f 1)" 0
    is 'its end' "$(llq 127.0.0.4 18541 settle.example 2 $2 0)" "0 $2 0"
}

# becomes WHAT SEEN EXPECTED: what a command prints, once the save after a restart is over
becomes() {
    shows() { [ "$($1)" = "$2" ]; }
    await 8 shows "$2" "$3"
    is "$1" "$($2)" "$3"
}
both() { echo "$(listed) $(slots)"; }

# ---- five entries on 16 slots: two of the sign, three of a tablet. Not in the first slots, and the table's count of seconds, which
# stamps go by, is a large one.
roster '127.0.0.5 2 4'
start --state "$table" --roster "$work/roster"
end TERM
printf '\377\377\377\0' | dd of="$table" bs=1 seek=5 conv=notrunc status=none
start --state "$table"
ends=
for i in 1 2 3; do
    established "the first slots: $i" 127.0.0.4 1854$i first.example 60
    ends="$ends $number"
done
since=$EPOCHSECONDS
established 'the sign' 127.0.0.5 18531 sign.example 7200
granted 'the sign: second' 127.0.0.5 18532 sign.example 7200
for i in 1 2 3; do granted "a tablet: $i" 127.0.0.3 1851$i tablet.example 3600; done
i=0
for number in $ends; do
    i=$((i + 1))
    is "the first slots: end $i" "$(llq 127.0.0.4 1854$i first.example 2 $number 0)" "0 $number 0"
done
before=$(entries)
is 'five entries' "$(used)" 5
end TERM
start --state "$table" --roster "$work/roster"

# ---- unchanged
reload 'unchanged' 'the roster is as it was'
roster '# the same' '' '  127.0.0.5	2 4 # the sign'
reload 'written in another way' 'the roster is as it was'
again 'unchanged' "16 slots, 5 entries taken up from $table" --roster "$work/roster" --slots 16
is 'unchanged: nothing said' "$(lines 'llqd: (new roster|the old table|the roster).*')" 0

# ---- taken
roster '127.0.0.5 3 4' '127.0.0.3 1 8' '2001:db8::10 2 2'
reload 'a new roster' 'new roster and slots taken: 3 listed addresses, 16 slots, 5 entries kept'
new=$'127.0.0.5 3 4\n127.0.0.3 1 8\n2001:db8::10 2 2'
is 'a new roster, by SIGHUP: listed' "$(listed)" "$new"
again 'without --roster and --slots' "16 slots, 5 entries taken up from $table"
becomes 'without --roster: the table'\''s own' listed "$new"
roster '127.0.0.5 2 4'
again 'the first roster' 'new roster and slots taken: 1 listed addresses, 16 slots, 5 entries kept' --roster "$work/roster"
becomes 'the first roster: listed' listed '127.0.0.5 2 4'
for n in 64 5 16; do
    again "$n slots" "new roster and slots taken: 1 listed addresses, $n slots, 5 entries kept" --slots $n
    becomes "$n slots: shown" both "127.0.0.5 2 4 $n"
    again "$n slots, then without --slots" "$n slots, 5 entries taken up from $table"
done
: >"$work/roster"
again 'an empty roster' 'new roster and slots taken: 0 listed addresses, 16 slots, 5 entries kept' --roster "$work/roster"
becomes 'an empty roster: listed' listed ''
roster '127.0.0.5 2 4'
reload 'a roster again' 'new roster and slots taken: 1 listed addresses, 16 slots, 5 entries kept'
is 'a roster again: listed' "$(listed)" '127.0.0.5 2 4'

# ---- refused, rule by rule; the old roster stays, and the host runs on
stays() {
    local what=$1 line="the old table stays: $2"
    reload "$what" "$line"
    is "$what, by SIGHUP: listed" "$(both)" '127.0.0.5 2 4 16'
    again "$what" "$line" --roster "$work/roster"
    logged "$what, by a restart: it runs on" "llqd: 16 slots, 5 entries taken up from $table"
    settled
    is "$what, by a restart: listed" "$(both)" '127.0.0.5 2 4 16'
}
roster '127.0.0.5 2 4' '127.0.0.3 0 2'
stays 'over a listed limit' '127.0.0.3 holds 3, over its new limit of 2'
roster '127.0.0.5 1 1'
stays 'over its limit, lowered' '127.0.0.5 holds 2, over its new limit of 1'
roster '127.0.0.5 2 4' '192.0.2.1 10 10' '2001:db8::10 8 8'
stays 'shares over the slots' 'the shares sum to 20, over the 16 slots'
roster '127.0.0.5 2 4' '192.0.2.1 12 12'
stays 'shares and entries over the slots' '3 entries beyond their shares and shares of 14 need 17 slots, there are 16'
roster '127.0.0.5 2 4'
again '4 slots' 'the old table stays: 5 entries, over the 4 slots' --slots 4
settled
is '4 slots: shown' "$(both)" '127.0.0.5 2 4 16'
again '4 slots, with the roster' 'the old table stays: 5 entries, over the 4 slots' --slots 4 --roster "$work/roster"
roster '127.0.0.5 4 4'
again '6 slots and a larger share' 'the old table stays: 3 entries beyond their shares and shares of 4 need 7 slots, there are 6' \
    --slots 6 --roster "$work/roster"
settled
is '6 slots: shown' "$(both)" '127.0.0.5 2 4 16'
again '7 slots and a larger share' 'new roster and slots taken: 1 listed addresses, 7 slots, 5 entries kept' --slots 7 --roster "$work/roster"
roster '127.0.0.5 2 4'
again 'as before' 'new roster and slots taken: 1 listed addresses, 16 slots, 5 entries kept' --slots 16 --roster "$work/roster"
becomes 'as before: shown' both '127.0.0.5 2 4 16'

# ---- the sign held more than an unlisted address may
granted 'the sign: third' 127.0.0.5 18533 sign.example 7200
granted 'the sign: fourth' 127.0.0.5 18534 sign.example 7200
roster '127.0.0.5 2 6'
before=$(entries)
reload 'a higher limit' 'new roster and slots taken: 1 listed addresses, 16 slots, 7 entries kept'
granted 'the sign: fifth' 127.0.0.5 18535 sign.example 7200
before=$(entries)
: >"$work/roster"
reload 'no longer listed' 'the old table stays: 127.0.0.5 holds 5, over its new limit of 4'
again 'no longer listed' 'the old table stays: 127.0.0.5 holds 5, over its new limit of 4' --roster "$work/roster"
settled
is 'no longer listed: still' "$(listed)" '127.0.0.5 2 6'

# ---- a roster file with an error: at SIGHUP the old table stays, at start it is an error
wrong() {
    reload "$1" "the old table stays: $2"
    refused "$1, at start" "$2" --port $((port + 500)) --state "$work/fresh" --roster "$work/roster"
}
roster '127.0.0.5 2 6' '127.0.0.6 5 4'
wrong 'a share over its limit' "$work/roster:2: share '5' is not a number from 0 to 4"
roster '127.0.0.5 2 65'
wrong 'a limit too large' "$work/roster:1: limit '65' is not a number from 1 to 64"
roster '# the sign' '127.0.0.5 2'
wrong 'a word too few' "$work/roster:2: a line is ADDRESS SHARE LIMIT"
roster 'sign.example 2 6'
wrong 'not an address' "$work/roster:1: 'sign.example' is not an IPv4 or IPv6 address"
roster '127.0.0.5 2 6' '::ffff:127.0.0.5 1 1'
wrong 'an address twice' "$work/roster:2: ::ffff:127.0.0.5 is listed twice"
roster "$(printf '#%255s' '')127.0.0.5 2 6"
wrong 'a line too long' "$work/roster:1: the line is too long"
for i in $(seq 17); do echo "192.0.2.$i 0 1"; done >"$work/roster"
wrong 'too many lines' "$work/roster:17: more than 16 addresses"
rm "$work/roster"
wrong 'no file' "$work/roster: No such file or directory"
mkdir "$work/roster"
wrong 'a folder' "$work/roster: Is a directory"
rmdir "$work/roster"
is 'after all of it: listed' "$(listed)" '127.0.0.5 2 6'
is 'after all of it: no other file' "$(ls "$work")" $'log\ntable'
end TERM

# ---- fresh tables: shares over the slots are an error; without --roster there is nothing to read anew; without --state it works too
roster '127.0.0.5 2 4' '192.0.2.1 12 12'
like 'a fresh table: shares over the slots' "$(said --port $port --slots 8 --roster "$work/roster")" \
    "llqd: $work/roster: [^"$'\n'"]*shares sum to 14, over the 8 slots"$'\nexit 1'
start --slots 3
kill -HUP $host
logged 'SIGHUP without --roster' 'llqd: the old table stays: no --roster was given'
granted 'it runs on' 127.0.0.3 18511 tablet.example 3600
end TERM
roster '127.0.0.5 1 1'
start --slots 3 --roster "$work/roster"
granted 'without --state' 127.0.0.3 18511 tablet.example 3600
tablet=($number $not_before $not_after)
roster '127.0.0.5 2 2'
kill -HUP $host
logged 'without --state: taken' 'llqd: new roster and slots taken: 1 listed addresses, 3 slots, 1 entries kept'
is 'the new share counts: others' "$(llq 127.0.0.3 18512 tablet.example 1 0 3600)" '1 0 60'
granted 'the new share counts: the sign' 127.0.0.5 18531 sign.example 3600
granted 'the new share counts: the sign'\''s second' 127.0.0.5 18532 sign.example 3600
number=${tablet[0]} not_before=${tablet[1]} not_after=${tablet[2]}
found 'the tablet'\''s entry is there' 127.0.0.3 18511 tablet.example 3600
end TERM

passed
