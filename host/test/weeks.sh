#!/usr/bin/env bash
# Weeks of thirteen bits: a table of them served, killed, taken up and rebuilt. A state file keeps its weeks, whatever is asked for. The
# clock across the ends of both cycles, and further than ten bits reach.
. "$(dirname "$0")/lib.sh"
need faketime faketime || :
alone
date='[0-9]{4}-[0-9]{2}-[0-9]{2} [0-9]{2}:[0-9]{2}:[0-9]{2} UTC'
# byte AT [FILE]: this byte of the table; size [FILE]: how many it has
byte() { od -An -tu1 -j"$1" -N1 "${2:-$table}" | tr -d ' '; }
size() { stat -c %s "${1:-$table}"; }
# bits [FILE]: the weeks that --show tells of
bits() { show "$@" | sed -n '1s/^table of [0-9]* slots, weeks of \([0-9]*\) bits, saved .*/\1/p'; }
# is_wide WHAT SLOTS: the file is a table of thirteen-bit weeks with so many slots
is_wide() { is "$1: length, kind, what --show says" "$(size) $(byte 0) $(bits)" "$((317 + 320 * $2)) 9 13"; }
weeks_of 13

# ---- a new table: its length, its kind, its place
printf '127.0.0.5 2 3 # the sign\n' >"$work/roster"
began=$EPOCHSECONDS
start --weeks 13 --slots 6 --roster "$work/roster" --state "$table"
is 'the start' "$(cat "$log")" "llqd: listening on 127.0.0.1 port $port"$'\n'"llqd: 6 slots, 0 entries taken up: $table is new"
is_wide 'a new table' 6
between 'a new table: its place' "$(place)" "$(gps $began)" "$(gps $((EPOCHSECONDS + 1)))"
between 'a new table: its week is none of ten bits' $(($(place) / 604800)) 1024 8191
like '--show: its first line' "$(show | head -n 1)" "table of 6 slots, weeks of 13 bits, saved $date, 0:00:[0-5][0-9] ago"
is '--show: the listed address' "$(show | sed -n 's/  */ /g; s/^ 127.0.0.5 \([0-9] .*\)/\1/p')" '2 3 0'
kill -USR1 $host
logged 'SIGUSR1' 'table of 6 slots, weeks of 13 bits, now:'
end TERM

# ---- setup, the setup again, response, refresh, end; the running count goes over its end meanwhile
bytes 9 fffffffe
start --state "$table"
logged 'taken up without --weeks' "llqd: 6 slots, 0 entries taken up from $table"
granted setup 127.0.0.2 18501 panel.example 3600
sleep 2
found 'the setup again' 127.0.0.2 18501 Panel.EXAMPLE 3600
is 'a response with ten less than what is left' "$(llq 127.0.0.2 18501 panel.example 1 $number $((told - 10)))" '4 0 0'
answered 'a response with what is left' 127.0.0.2 18501 panel.example 3600 $told
is refresh "$(llq 127.0.0.2 18501 panel.example 2 $number 9000)" "0 $number 7200"
is end "$(llq 127.0.0.2 18501 panel.example 2 $number 0)" "0 $number 0"
full

# ---- kill -9 and restart, with --weeks and without: entries and what is left
before=$(entries)
sleep 1.2
found 'the second, before kill -9' 127.0.0.5 18532 sign.example 3600
end 9
between 'the running count has gone over its end' "$(od -An --endian=big -tu4 -j9 -N4 "$table" | tr -d ' ')" 0 600
start --weeks 13 --state "$table"
logged 'kill -9: taken up' "llqd: 6 slots, 6 entries taken up from $table"
is 'kill -9: entries' "$(entries)" "$before"
lives 'kill -9: what is left' "$(left 18531)" 3600 $since
answered 'kill -9: what it was told is right' 127.0.0.5 18532 sign.example 3600 $told
is 'kill -9: a refresh' "$(llq 127.0.0.5 18531 sign.example 2 $sign 120)" "0 $sign 120"
between 'kill -9: what is left after the refresh' "$(left 18531)" 100 120
since=$EPOCHSECONDS
is 'kill -9: a refresh again' "$(llq 127.0.0.5 18531 sign.example 2 $sign 3600)" "0 $sign 3600"
is_wide 'kill -9' 6
end 9
before=$(entries)
start --state "$table"
is 'kill -9, without --weeks: entries' "$(entries)" "$before"
lives 'kill -9, without --weeks: what is left' "$(left 18531)" 3600 $since
is_wide 'kill -9, without --weeks' 6
saved=$(stamp)
sleep 2.2
is 'the clock alone is not saved' "$(stamp)" "$saved"

# ---- another roster and other slots: weeks, entries and leases stay
# kept WHAT SLOTS LISTED: so many slots and listed addresses are told of, and saved since $saved
kept() {
    logged "$1" "llqd: new roster and slots taken: $3 listed addresses, $2 slots, 6 entries kept"
    saved_again "$1"
    is_wide "$1" $2
    is "$1: entries" "$(entries)" "$before"
    lives "$1: what is left" "$(left 18531)" 3600 $since
}
# anew OPTION..: killed and started again
anew() { end 9; saved=$(stamp); start --state "$table" "$@"; }
printf '127.0.0.5 2 3\n127.0.0.3 1 8\n' >"$work/roster"
anew --roster "$work/roster"
kept 'another roster' 6 2
for n in 64 7; do
    anew --slots $n
    kept "$n slots" $n 2
done
anew --roster "$work/roster"
printf '127.0.0.5 2 4\n' >"$work/roster"
kill -HUP $host
kept 'a roster by SIGHUP' 7 1
granted 'the new limit counts' 127.0.0.5 18533 sign.example 3600
end TERM
is 'the end' "$code $(tail -n 1 "$log")" '0 llqd: stopped'

# ---- other weeks than the file's: one line, exit 1, and the file is left as it is
other() {
    local sum=$(file "$work/$1")
    refused "$1 with --weeks $3" "$work/$1: its weeks have $2 bits, not $3; it is left as it is" --port $port --state "$work/$1" --weeks $3
    refused "$1 with --weeks $3 and more" "$work/$1: its weeks have $2 bits, not $3; it is left as it is" --port $port --state "$work/$1" --weeks $3 \
        --slots 12 --roster "$work/roster"
    is "$1 with --weeks $3: the file" "$(file "$work/$1")" "$sum"
    is "$1 with --weeks $3: no other file" "$(ls "$work" | grep -c "^$1")" 1
}
other table 13 10
start --state "$work/ten"
established 'a table by itself' 127.0.0.2 18501 a.example 3600
end TERM
is 'a table by itself has ten bits' "$(size "$work/ten") $(byte 0 "$work/ten") $(bits "$work/ten")" "$((313 + 320 * 16)) 1 10"
other ten 10 13
start --state "$work/ten" --weeks 10
logged 'its own weeks' "llqd: 16 slots, 1 entries taken up from $work/ten"
end TERM
start --state "$work/new" --weeks 10
end TERM
is 'a table by --weeks 10' "$(size "$work/new") $(byte 0 "$work/new") $(bits "$work/new")" "$((313 + 320 * 16)) 1 10"
rm "$work/new"
for wrong in 12 11 9 14 0 1013 13x -13 ten ''; do
    refused "--weeks '$wrong'" "--weeks '$wrong' is not 10 or 13" --port $port --state "$work/new" --weeks="$wrong"
done
is 'no table is made' "$(ls "$work"/new* 2>/dev/null)" ''

# ---- without a state file
start --weeks 13 --slots 2
granted 'without --state' 127.0.0.2 18501 a.example 60
kill -USR1 $host
logged 'without --state: weeks' 'table of 2 slots, weeks of 13 bits, now:'
end TERM

# ---- what is not sound: the other width's kind, a place past the cycle, lengths between
# damaged WHAT FILE AT HEX
damaged() {
    cp "$2" "$work/damaged"
    bytes "$3" "$4" "$work/damaged"
    unsound "$1" damaged
}
damaged 'thirteen bits with the kind of ten' "$table" 0 01
damaged 'ten bits with the kind of thirteen' "$work/ten" 0 09
damaged 'a place of the cycle' "$table" 1 "$(printf %016x $cycle)"
damaged 'a place with its highest byte' "$table" 1 01
damaged 'a line'\''s kind' "$table" 13 09
damaged 'a slot'\''s kind' "$table" 317 09
damaged 'a zero of the last slot' "$table" $(($(size) - 1)) 01
for cut in 1 2 3 4 5; do head -c -$cut "$table" >"$work/short" && unsound "$cut bytes less" short; done
{ cat "$work/ten"; printf '\0\0\0\0'; } >"$work/long" && unsound 'ten bits and four bytes more' long
head -c 317 "$table" >"$work/none" && unsound 'no slot' none
cp "$table" "$work/last" && bytes 1 "$(printf %016x $((cycle - 1)))" "$work/last"
is 'the last place of the cycle' "$(used "$work/last") $(bits "$work/last")" '7 13'
rm "$work/last"
start --weeks 13 --slots 64 --state "$work/largest"
end TERM
start --state "$work/largest"
logged 'the largest' "llqd: 64 slots, 0 entries taken up from $work/largest"
end TERM
is 'the largest: its size' "$(size "$work/largest")" 20797
printf '\0' >>"$work/largest" && unsound 'a byte more than the largest' largest
{ head -c 317 "$table"; for i in $(seq 65); do tail -c 320 "$table"; done; } >"$work/larger" && unsound '65 slots' larger

# ---- a place is the table's own: nothing takes it for one of another cycle. The file was saved just now, so leases run on from there.
rm "$table"
start --weeks 13 --state "$table"
established 'places' 127.0.0.2 18501 a.example 7200
sign=$number
end TERM
cp -p "$table" "$work/copy"
# stays WHAT PLACE: a table at this place, saved just now
stays() {
    cp -p "$work/copy" "$table"
    began=$EPOCHSECONDS
    put $2 $began
    start --state "$table"
    lives "$1: told" "$(told)" 7200 $began
    granted "$1: a setup" 127.0.0.3 18502 b.example 3600
    between "$1: its place" "$(place)" $2 $(($2 + EPOCHSECONDS - began + 1))
    end TERM
}
stays 'a week of ten bits' $(($(gps $EPOCHSECONDS) % 619315200))
is 'a week of ten bits: nothing is said' "$(lines 'llqd: .*(clock|passed|run out).*')" 0
stays 'nearly half a cycle before' $((($(gps $EPOCHSECONDS) + cycle - cycle / 2 + 1000) % cycle))
is 'nearly half a cycle before: nothing is said' "$(lines 'llqd: .*(clock|passed|run out).*')" 0

if ! movable; then
    left_out 'the clock: libfaketime (faketime) cannot be had'
    passed
fi

# ---- 14 years ahead, more than half a cycle of ten bits, and 78: the time is told, and the lease has run out; leases go on
for years in 14 78; do
    cp -p "$work/copy" "$table"
    since=$(stat -c %Y "$table")
    clock $((years * 31536000))
    like "$years years: --show" "$(show | tail -n 2)" $'slots: 16, used 0, free 16, reserved 0\nrun out since it was saved: 1'
    start --state "$table"
    passed_by=$(sed -n 's/^llqd: \([0-9]*\) s have passed since the table was saved$/\1/p' "$log")
    between "$years years: what has passed" "$passed_by" $((years * 31536000)) $((years * 31536000 + EPOCHSECONDS - since + 2))
    logged "$years years: run out" 'llqd: run out since the table was saved: 1'
    is "$years years: no other line" "$(lines 'llqd: .*(clock|passed|run out).*')" 2
    established "$years years" 127.0.0.2 18501 a.example 3600
    sign=$number
    between "$years years: its place" "$(place)" "$(gps $((since + years * 31536000)))" "$(gps $((EPOCHSECONDS + years * 31536000 + 1)))"
    go_on "$years years"
    end TERM
done
# 79 are more than half a cycle of thirteen: nothing can be kept, but leases must not stand still
cp -p "$work/copy" "$table"
clock $((79 * 31536000))
start --state "$table"
logged '79 years' "llqd: $((cycle / 2 - 1)) s have passed since the table was saved"
is '79 years: entries' "$(entries)" ''
is '79 years: no step back' "$(lines 'llqd: .* behind .*')" 0
established '79 years' 127.0.0.2 18501 a.example 3600
sign=$number
go_on '79 years'
end TERM

# ---- a table just under half a cycle ahead
clock +0
sign=$(printf %u "0x$(entries "$work/copy" | cut -d ' ' -f 4)")
half_ahead

# ---- across the end of the ten-bit weeks, which is none of theirs, and across their own
across '2038-11-20 23:59:42' 3071
across '2137-01-05 23:59:42' 8191

passed
