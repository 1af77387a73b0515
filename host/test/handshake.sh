#!/usr/bin/env bash
# Setup, the setup again, response, refresh and end, names in either case, the limits, the listed address; kill -9 and SIGTERM, and the entries taken up again.
. "$(dirname "$0")/lib.sh"
alone

printf '127.0.0.5 2 3 # the sign\n' >"$work/roster"
start --slots 6 --roster "$work/roster" --state "$table"
is 'the start' "$(cat "$log")" "llqd: listening on 127.0.0.1 port $port"$'\n'"llqd: 6 slots, 0 entries taken up: $table is new"

# ---- setup, and two seconds later the setup again, in another spelling: the same number and what is left
granted setup 127.0.0.2 18501 panel.example 3600
[ "$number" != 0 ] || fail 'setup: number 0'
sleep 2
found 'the setup again' 127.0.0.2 18501 Panel.EXAMPLE 3600
rest=$told
is 'a refresh before the response' "$(llq 127.0.0.2 18501 panel.example 2 $number 60)" "4 $number 0"
is 'a response from another port' "$(llq 127.0.0.2 18502 panel.example 1 $number 3600)" '4 0 0'

# ---- a response is right with any lease from what is left to what was granted, before it is established and after
wrong() {
    is "$1: a response with ten less than what is left" "$(llq 127.0.0.2 18501 panel.example 1 $number $((rest - 10)))" '4 0 0'
    is "$1: one with lease 0" "$(llq 127.0.0.2 18501 panel.example 1 $number 0)" '4 0 0'
    is "$1: one with more than was granted" "$(llq 127.0.0.2 18501 panel.example 1 $number 3601)" '4 0 0'
    is "$1: it stays so" "$(entries | cut -d ' ' -f 2,3,5)" "18501 $1 1:00:00"
}
wrong pending
answered 'a response with what is left' 127.0.0.2 18501 panel.example 3600 $rest
wrong established
answered 'one with what was granted' 127.0.0.2 18501 panel.example 3600 3600
answered 'one with a lease between' 127.0.0.2 18501 panel.example 3600 $((rest + 1))
found 'the setup again when established' 127.0.0.2 18501 panel.example 3600
is refresh "$(llq 127.0.0.2 18501 panel.example 2 $number 9000)" "0 $number 7200"
is end "$(llq 127.0.0.2 18501 panel.example 2 $number 0)" "0 $number 0"
is 'a refresh of what has ended' "$(llq 127.0.0.2 18501 panel.example 2 $number 60)" "4 $number 0"

# ---- letters of either case are one name, stored in small ones; the bytes beside them and those over 127 are as they are
established 'a name in mixed case' 127.0.0.2 18503 AbCdEfGhIjKlMnOpQrStUvWxYz.Example 3600
found 'the same in small letters' 127.0.0.2 18503 abcdefghijklmnopqrstuvwxyz.example 3600
is 'it is stored in small letters' "$(entries | cut -d ' ' -f 7)" abcdefghijklmnopqrstuvwxyz.example.
is 'its end in capitals' "$(llq 127.0.0.2 18503 ABCDEFGHIJKLMNOPQRSTUVWXYZ.EXAMPLE 2 $number 0)" "0 $number 0"
for pair in '064 096' '091 123' '193 225'; do # @ and `, [ and {, 0xC1 and 0xE1
    set -- $pair
    established "a name of byte $1" 127.0.0.2 18503 "\\$1.example" 3600
    one=$number
    established "a name of byte $2" 127.0.0.2 18503 "\\$2.example" 3600
    is "bytes $1 and $2 are two names" "$(used)" 2
    is "the end of byte $1" "$(llq 127.0.0.2 18503 "\\$1.example" 2 $one 0)" "0 $one 0"
    is "the end of byte $2" "$(llq 127.0.0.2 18503 "\\$2.example" 2 $number 0)" "0 $number 0"
done

# ---- a chatty client on many ports is held to its limit, and the listed address still gets its share
full

# ---- kill -9 and restart: entries and their remaining life are kept
before=$(entries)
sleep 2
turn() { [ "${EPOCHREALTIME#*.}" -lt 200000 ]; }
await 2 turn
found 'the second, before kill -9' 127.0.0.5 18532 sign.example 3600
end 9
touch -d "@$((not_before / 1000000 + 1))" "$table" # as after a save at the turn of a second
start --state "$table"
answered 'what it was told is right after the restart' 127.0.0.5 18532 sign.example 3600 $told
before=${before/ 18532 pending/ 18532 established}
logged 'the entries taken up' "llqd: 6 slots, 6 entries taken up from $table"
is 'the entries after kill -9' "$(entries)" "$before"
is 'the slots shown' "$(show | tail -n 1)" 'slots: 6, used 6, free 0, reserved 0'
is 'the listed address shown' "$(show | sed -n 's/  */ /g; s/^ 127.0.0.5 \([0-9] .*\)/\1/p')" '2 3 2 at its share'
like 'the sign shown' "$(show | grep ' 18531 ' | tr -s ' ')" \
    " 127.0.0.5 18531 established $(printf %016x $sign) 1:00:00 0:59:[0-9]{2} sign.example. IN PTR"
lives 'what is left after the restart' "$(left 18531)" 3600 $since
is 'a refresh after the restart' "$(llq 127.0.0.5 18531 sign.example 2 $sign 120)" "0 $sign 120"
between 'what is left after the refresh' "$(left 18531)" 100 120

# ---- SIGTERM and SIGINT
before=$(entries)
end TERM
is 'SIGTERM' "$code $(tail -n 1 "$log")" '0 llqd: stopped'
start --state "$table"
end INT
is 'SIGINT' "$code $(tail -n 1 "$log")" '0 llqd: stopped'
is 'the entries after both' "$(entries)" "$before"
is 'no other file is left' "$(ls -A "$work")" $'log\nroster\ntable'

passed
