#!/usr/bin/env bash
# The system clock, moved by libfaketime: no wrong clock costs a lease, neither at start nor while the host runs.
# The time since boot stays true but where it says so. Files' times are the kernel's: `touch` makes them what they would be.
. "$(dirname "$0")/lib.sh"
need faketime faketime || { left_out 'all of it: libfaketime (faketime) cannot be had'; passed; }
alone
movable || { left_out 'all of it: libfaketimeMT.so.1 is not there'; passed; }
clock +86400
like 'the clock can be moved' "$(($("${under[@]}" date +%s) - EPOCHSECONDS))" '8639[89]|8640[0-2]'
date='[0-9]{4}-[0-9]{2}-[0-9]{2} [0-9]{2}:[0-9]{2}:[0-9]{2} UTC'
day='86(39[89]|40[0-2])'

# ---- a table with two entries, and then a box without a battery clock
# two WHAT: a new table with two entries, of 3,600 s and 7,200 s
two() {
    start --state "$table"
    since=$EPOCHSECONDS
    established "$1" 127.0.0.2 18501 a.example 3600
    sign=$number
    granted "$1: second" 127.0.0.3 18502 b.example 7200
    end TERM
    before=$(entries)
}
clock +0
two 'before'
sum=$(file)
is 'two entries' "$(used)" 2

clock "$(at '1970-01-01 00:00:05')"
began=$EPOCHSECONDS
begin --state "$table" --clock-wait 2
logged '1970: it waits' "llqd: the clock reads 1970-01-01 00:00:[0-9]{2} UTC, before this program was built \($date\); waiting up to 2 s for it to be set"
finish
is '1970, not set' "$code $(tail -n 1 "$log")" '1 llqd: the clock was not set within 2 s'
between '1970, not set: seconds' $((EPOCHSECONDS - began)) 2 8
is '1970, not set: the file' "$(file)" "$sum"
like '1970, a new table' "$(said --port $port --state "$work/none" --clock-wait 1)" \
    "llqd: the clock reads 1970-[^"$'\n'"]*waiting up to 1 s for it to be set"$'\nllqd: the clock was not set within 1 s\nexit 1'
like '1970, no wait' "$(said --port $port --state "$work/none" --clock-wait 0)" \
    "llqd: the clock reads 1970-[^"$'\n'"]*, before this program was built \($date\)"$'\nexit 1'
is '1970: no table is made' "$(ls "$work"/none* 2>/dev/null)" ''

begin --state "$table" --clock-wait 60
logged '1970 again: it waits' "llqd: the clock reads 1970-.* waiting up to 60 s for it to be set"
end TERM
is '1970: SIGTERM while it waits' "$code" 0
is '1970: SIGTERM while it waits: the file' "$(file)" "$sum"

begin --state "$table"
logged '1970: it waits 300 s by itself' "llqd: the clock reads 1970-.* waiting up to 300 s for it to be set"
patience=1
is '1970: nobody is answered' "$(llq 127.0.0.2 18509 a.example 2 1 60)" ''
patience=3
is '1970: the file while it waits' "$(file)" "$sum"
clock +0
logged '1970, set right' "llqd: 16 slots, 2 entries taken up from $table"
is '1970, set right: entries' "$(entries)" "$before"
lives '1970, set right: told' "$(told)" 3600 $since
lives '1970, set right: shown' "$(left 18502)" 7200 $since

# ---- a day ahead for two seconds while it runs
saved=$(stamp)
over() { [ $EPOCHSECONDS -gt $((began + 2)) ]; }
began=$EPOCHSECONDS
clock +86400
logged 'a day ahead' "llqd: the system clock was set ahead $day s; leases go by the time since boot"
saved_again 'a day ahead'
await 5 over
lives 'a day ahead: told' "$(told)" 3600 $since
saved=$(stamp)
clock +0
logged 'back again' "llqd: the system clock was set back $day s; leases go by the time since boot"
saved_again 'back again'
is 'a day ahead and back: entries' "$(entries)" "$before"
lives 'a day ahead and back: told' "$(told)" 3600 $since
lives 'a day ahead and back: shown' "$(left 18502)" 7200 $since
is 'nothing else was said' "$(lines 'llqd: the system clock.*|llqd: .* tick|llqd: .* have passed .*')" 2

# ---- ended while a day ahead, started again while still ahead; then set right, and started again
clock +86400
twice() { [ "$(lines 'llqd: the system clock was set ahead.*')" = 2 ]; }
await 8 twice || fail 'a day ahead again: no second line'
end 9
later 86400
start --state "$table"
logged 'still ahead: taken up' "llqd: 16 slots, 2 entries taken up from $table"
is 'still ahead: no step' "$(lines 'llqd: .*(clock|tick|passed).*')" 0
lives 'still ahead: told' "$(told)" 3600 $since
saved=$(stamp)
clock +0
logged 'set right' "llqd: the system clock was set back $day s; leases go by the time since boot"
saved_again 'set right'
end 9
start --state "$table"
is 'started again by the right clock: entries' "$(entries)" "$before"
lives 'started again by the right clock: told' "$(told)" 3600 $since
lives 'started again by the right clock: shown' "$(left 18502)" 7200 $since

# ---- a year back while it runs: leases go on
clock -31536000
logged 'a year back' 'llqd: the system clock was set back 3153(599[89]|600[0-2]) s; leases go by the time since boot'
lives 'a year back: told' "$(told)" 3600 $since
first=$(told)
sleep 2.2
between 'a year back: leases go on' $((first - $(told))) 2 30
clock +0
logged 'set right after a year back' 'llqd: the system clock was set ahead 31.* s; leases go by the time since boot'
end TERM
is 'after all of it' "$(entries)" "$before"

# ---- away for 7000 s: what ran out meanwhile is gone, the rest has what is left
rm "$table"
two 'a new table'
cp -p "$table" "$work/copy"
clock +7000
like 'away: --show' "$(show)" '.* UTC, 1:5[67]:[0-9]{2} ago'$'\n'.*$'\n''run out since it was saved: 1'
start --state "$table" --verbose
logged 'away' 'llqd: (699[5-9]|70[0-4][0-9]) s have passed since the table was saved'
is 'away: the other' "$(entries)" "$(grep ' 18502 ' <<<"$before")"
lives 'away: what it has left' "$(left 18502)" 200 $since
end TERM

# ---- the file's time: a clock more than ten minutes before it is waited for; the lesser of the two times passed counts
cp -p "$work/copy" "$table"
clock +0
later 660
saved=$(stamp)
start --state "$table" --clock-wait 1
logged '11 minutes: it waits' "llqd: the clock reads $date, more than 10 minutes before $table was saved \($date\); waiting up to 1 s for it to be set"
logged '11 minutes, not set' 'llqd: the clock was not set within 1 s; going on with it'
is '11 minutes, not set: entries' "$(entries)" "$before"
between '11 minutes, not set: saved just now' "$(told)" 3570 3600
saved_again '11 minutes, not set'
end 9
start --state "$table"
is '11 minutes, not set: the next start does not wait' "$(lines 'llqd: .*clock.*')" 0
end TERM
cp -p "$work/copy" "$table"
later 660
begin --state "$table" --clock-wait 60
logged '11 minutes again: it waits' "llqd: the clock reads .* waiting up to 60 s for it to be set"
clock +660
logged '11 minutes, set' "llqd: 16 slots, 2 entries taken up from $table"
lives '11 minutes, set: told' "$(told)" 3600 $since
end TERM
cp -p "$work/copy" "$table"
clock +100
later 640
saved=$(stamp)
start --state "$table"
is '9 minutes are not waited for' "$(lines 'llqd: the clock reads.*')" 0
between '9 minutes: saved just now' "$(told)" 3590 3600
saved_again '9 minutes'
end TERM
cp -p "$work/copy" "$table"
clock +0
later -7000
start --state "$table"
is 'an old time of the file costs no lease' "$(entries)" "$before"
lives 'an old time of the file: told' "$(told)" 3600 $since
end TERM

# ---- started a day ahead, then set right: the table's own clock is a day ahead
rm "$table"
clock +86400
start --state "$table"
since=$EPOCHSECONDS
established 'started a day ahead' 127.0.0.2 18501 a.example 3600
sign=$number
before=$(entries)
clock +0
logged 'started a day ahead: set right' "llqd: the system clock was set back $day s; leases go by the time since boot"
end TERM
cp -p "$table" "$work/copy"
saved=$(stamp) began=$EPOCHSECONDS
start --state "$table"
logged 'behind the table' "llqd: the system clock is $day s behind the table's; leases go on from the table"
is 'behind the table: entries' "$(entries)" "$before"
lives 'behind the table: told' "$(told)" 3600 $since
went_back 'behind the table'
end TERM
cp -p "$work/copy" "$table"
later -100
lives 'behind the table, by the file'\''s time: shown' "$(left 18501)" 3500 $since
saved=$(stamp) began=$EPOCHSECONDS
start --state "$table"
logged 'behind the table, by the file'\''s time' 'llqd: (9[5-9]|1[0-4][0-9]) s have passed since the table was saved'
lives 'behind the table, by the file'\''s time: told' "$(told)" 3500 $since
went_back 'behind the table, by the file'\''s time'
end TERM

# ---- a year ahead, and killed; then by the true clock: leases go on, and a start after that finds nothing of the year
rm "$table"
clock +31536000
start --state "$table"
established 'a year ahead' 127.0.0.2 18501 a.example 3600
sign=$number
end 9
later 31536000
clock +0
saved=$(stamp) began=$EPOCHSECONDS
lives 'a year behind: shown' "$(left 18501)" 3600 $began
start --state "$table" --clock-wait 0
logged 'a year behind' "llqd: the clock reads $date, more than 10 minutes before $table was saved \($date\); going on with it"
logged 'a year behind: the table' "llqd: the system clock is 3153(5[0-9]{3}|600[0-2]) s behind the table's; leases go on from the table"
is 'a year behind: no other line' "$(lines 'llqd: .*(clock|passed|run out).*')" 2
lives 'a year behind: told' "$(told)" 3600 $began
went_back 'a year behind'
go_on 'a year behind'
end 9
clock +20
start --state "$table" --clock-wait 0
lives 'a year behind, killed: told' "$(told)" 3580 $began
is 'a year behind, killed: nothing is said' "$(lines 'llqd: .*(clock|passed|run out).*')" 0
go_on 'a year behind, killed'
end TERM
clock +40
under=("${moved[@]}")
start --state "$table" --clock-wait 0 --verbose
lives 'a year behind, ended: told' "$(told)" 3560 $began
is 'a year behind, ended: nothing is said' "$(lines 'llqd: .*(clock|passed|run out).*')" 0
clock +3640
logged 'a year behind: the entry ends' 'run out: 1'
granted 'a year behind: it has ended' 127.0.0.2 18501 a.example 60
end TERM
under=("${moved[@]}" FAKETIME_DONT_FAKE_MONOTONIC=1)

# ---- a table just under half a cycle ahead
rm "$table"
clock +0
start --state "$table"
established 'half a cycle' 127.0.0.2 18501 a.example 7200
sign=$number
end TERM
cp -p "$table" "$work/copy"
half_ahead

# ---- a step back that is known to the second, since the clock stands still: 60 s the library does not take, 61 s it does
still=$((EPOCHSECONDS + 86400))
date -d "@$still" '+%F %T' >"$work/time"
for behind in 60 61; do
    cp -p "$work/copy" "$table"
    put $(($(gps $still) + behind)) $still
    saved=$(stamp) began=$EPOCHSECONDS
    start --state "$table"
    logged "$behind s behind" "llqd: the system clock is $behind s behind the table's; leases go on from the table"
    [ $behind = 60 ] || went_back "$behind s behind" $((still - began))
    lives "$behind s behind: told" "$(told)" 7200 $began
    go_on "$behind s behind"
    end TERM
done

# ---- 14 years ahead: more than half a cycle of the ten-bit week. Nothing can be kept, but leases must not stand still.
cp -p "$work/copy" "$table"
clock $((14 * 31536000))
start --state "$table"
is '14 years ahead: entries' "$(entries)" ''
is '14 years ahead: no step back' "$(lines 'llqd: .* behind .*')" 0
established '14 years ahead' 127.0.0.2 18501 a.example 3600
sign=$number
sleep 2.2
between '14 years ahead: leases go on' $((3600 - $(told))) 2 30
end TERM

# ---- the ten-bit week begins again
across '2038-11-20 23:59:42' 1023

# ---- suspended for 75 s: the time since boot goes on with the clock, and leases with it
rm "$table"
clock +0
under=("${moved[@]}")
start --state "$table" --verbose
since=$EPOCHSECONDS
established 'before the suspend' 127.0.0.2 18501 a.example 3600
sign=$number
granted 'a short lease' 127.0.0.3 18502 b.example 60
clock +75
logged 'suspended' 'llqd: 7[4-9] s since the last tick'
logged 'the short lease' 'run out: 1'
kill -USR1 $host
logged 'the short lease is counted' '  entries +run out 1'
lives 'suspended: told' "$(told)" 3525 $since
is 'suspended: no step of the clock' "$(lines 'llqd: the system clock.*')" 0
is 'suspended: entries' "$(entries | cut -d ' ' -f 1-3)" '127.0.0.2 18501 established'
end TERM

passed
