#!/usr/bin/env bash
# What the host says: the lines of --verbose, the start, the counters of SIGUSR1, the columns of --show, --version, -h, errors of options.
. "$(dirname "$0")/lib.sh"
alone
date='[0-9]{4}-[0-9]{2}-[0-9]{2} [0-9]{2}:[0-9]{2}:[0-9]{2} UTC'

# verbose WHAT LINE: this is the host's next line on a datagram, and no other came with it
seen=0
verbose() {
    seen=$((seen + 1))
    came() { [ "$(lines '[^l ].*')" -ge $seen ]; }
    await 8 came
    is "$1: lines" "$(lines '[^l ].*')" $seen
    like "$1" "$(grep '^[^l ]' "$log" | tail -n 1)" "$2"
}
# asks WHAT FROM PORT NAME OPTION LINE: an option sent as it stands, and what is said of it
asks() { ask "$2" "$3" "$4" +ednsopt=1:"$5" >/dev/null; verbose "$1" "$2:$3 $6"; }

# ---- --verbose: setup, response, refresh
printf '127.0.0.5 2 3\n2001:db8::10 1 8\n127.0.0.6 0 1\n' >"$work/roster"
start --slots 7 --roster "$work/roster" --state "$table" --verbose
granted 'a setup' 127.0.0.2 18501 sign.example 3600
verbose 'granted' '127.0.0.2:18501 setup sign.example. PTR: granted, lease 3600'
sleep 1
found 'a setup again' 127.0.0.2 18501 SIGN.example 3600
verbose 'granted before' "127.0.0.2:18501 setup (sign|SIGN).example. PTR: granted before, $told s left"
asks 'established' 127.0.0.2 18501 sign.example "$(option 1 $number 3600)" 'response sign.example. PTR: established, 3(600|59[0-9]) s left'
asks 'a response: no such LLQ' 127.0.0.2 18502 sign.example "$(option 1 $number 3600)" 'response sign.example. PTR: no such LLQ'
asks 'a response with a wrong lease' 127.0.0.2 18501 sign.example "$(option 1 $number 3601)" 'response sign.example. PTR: no such LLQ'
asks 'renewed' 127.0.0.2 18501 sign.example "$(option 2 $number 9000)" 'refresh sign.example. PTR: renewed, lease 7200'
asks 'ended' 127.0.0.2 18501 sign.example "$(option 2 $number 0)" 'refresh sign.example. PTR: ended'
asks 'a refresh: no such LLQ' 127.0.0.2 18501 sign.example "$(option 2 $number 60)" 'refresh sign.example. PTR: no such LLQ'

# ---- full, for each reason. 7 slots, shares of 3.
for i in 1 2 3 4; do
    granted "setup $i" 127.0.0.3 1851$i chatty.example 60
    verbose "setup $i" "127.0.0.3:1851$i setup chatty.example. PTR: granted, lease 60"
done
asks 'at its limit' 127.0.0.3 18515 chatty.example "$(option 1 0 60)" 'setup chatty.example. PTR: full: at its limit of 4'
asks 'reserved' 127.0.0.4 18521 other.example "$(option 1 0 60)" 'setup other.example. PTR: full: every free slot is reserved'
asks 'reserved, a listed address without a share' 127.0.0.6 18521 other.example "$(option 1 0 60)" \
    'setup other.example. PTR: full: every free slot is reserved'
for i in 1 2; do asks "a listed address: $i" 127.0.0.5 1853$i sign.example "$(option 1 0 3600)" 'setup sign.example. PTR: granted, lease 3600'; done
asks 'at its share' 127.0.0.5 18533 sign.example "$(option 1 0 60)" 'setup sign.example. PTR: full: every free slot is reserved'

# ---- format errors, versions, refusals
asks 'an error in a setup' 127.0.0.2 18501 sign.example "$(option 1 0 60 1 3)" 'setup sign.example. PTR: format error'
asks 'an error in a refresh' 127.0.0.2 18501 sign.example "$(option 2 5 60 1 1)" 'refresh sign.example. PTR: format error'
asks 'opcode 3' 127.0.0.2 18501 sign.example "$(option 3 0 60)" 'opcode 3 sign.example. PTR: format error'
asks 'version 2' 127.0.0.2 18501 sign.example "$(option 1 0 60 2)" 'setup sign.example. PTR: version 2 is not 1'
asks 'not 18 bytes' 127.0.0.2 18501 sign.example 0001 'format error: an LLQ option has not 18 bytes'
ask 127.0.0.2 18501 sign.example +ednsopt=1:"$(option 1 0 60)" +ednsopt=1:"$(option 1 0 60)" >/dev/null
verbose 'two options' '127.0.0.2:18501 format error: 2 LLQ options for 1 question'
patience=1
ask 127.0.0.2 18501 sign.example +edns=0 >/dev/null
verbose 'no LLQ option' '127.0.0.2:18501 refused 7: no LLQ option'
patience=3
send() { cat "$work/message" >/dev/udp/127.0.0.1/$port; }
printf 'a word' >"$work/message"
send
verbose 'too short' '127.0.0.1:[0-9]+ refused 3: .+'
head -c 1473 /dev/zero >"$work/message"
send
verbose 'too long' '127.0.0.1:[0-9]+ refused 3: .+'
message "$work/message" a.example "$(option 1 0 60)"
printf '\200' | dd of="$work/message" bs=1 seek=2 conv=notrunc status=none
send
verbose 'a reply' '127.0.0.1:[0-9]+ refused 4: .+'
message "$work/message" a.example "$(option 1 0 60)"
printf '\300' | dd of="$work/message" bs=1 seek=12 conv=notrunc status=none
send
verbose 'a compressed name' '127.0.0.1:[0-9]+ refused 5: .+'
message "$work/message" a.example "$(option 1 0 60)"
printf 'more' >>"$work/message"
send
verbose 'bytes behind the OPT record' '127.0.0.1:[0-9]+ refused 6: .+'

message "$work/message" 'a.example b.example' "$(option 1 0 60)"
send
verbose 'two questions, one option' '127.0.0.1:[0-9]+ format error: 1 LLQ options? for 2 questions'

# ---- classes, types and names
of() { ask 127.0.0.2 18501 "$1" "${@:3}" +ednsopt=1:"$(option 2 1 60)" >/dev/null; verbose "$2" "127.0.0.2:18501 refresh $2: no such LLQ"; }
of b.example 'b.example. CH PTR' -c CH
of b.example 'b.example. CLASS7 PTR' -c CLASS7
of . '\. PTR'
of 'esc\027.example' 'esc\\027\.example\. PTR'
of 'a\.b.example' 'a\\046b\.example\. PTR'
for type in A TXT SRV TYPE65280; do of b.example "b.example. $type"; done
type=PTR

# ---- the counters of all that, and the table
: >"$log"
seen=0
kill -USR1 $host
logged 'the end of the report' 'slots: 7, used 6, free 1, reserved 1'
squeezed=$(sed 's/  */ /g; s/ $//' "$log")
like 'the counters: since' "$(head -n 1 <<<"$squeezed")" "counters since $date:"
is 'the counters' "$(sed -n '2,9p' <<<"$squeezed")" " datagrams 40: answered 34, refused 6, link-local 0
 refused 3: 2 4: 1 5: 1 6: 1 7: 1
 setup granted 7, granted before 1, full 4
 response established 1, no such LLQ 2
 refresh renewed 1, ended 1, no such LLQ 10
 other format error 6, version 1
 entries run out 0
 replies held 10, dropped 0, not sent 0"
like 'the counters: saves' "$(sed -n 10p <<<"$squeezed")" ' saves ([3-9]|1[0-9]), failed 0, longest [0-9]\.[0-9]{3} s'
is 'the table now' "$(sed -n 11p <<<"$squeezed")" 'table of 7 slots, weeks of 10 bits, now:'

# ---- --show: the same table, in columns
show >"$work/shown"
like '--show: its first line' "$(head -n 1 "$work/shown")" "table of 7 slots, weeks of 10 bits, saved $date, 0:00:[0-5][0-9] ago"
rest() { sed -n '/^listed addresses:$/,$p' "$1" | sed 's/ [01]:[0-9][0-9]:[0-9][0-9]  \([a-z.]* IN\)/ LEFT \1/'; }
is '--show and SIGUSR1 agree' "$(rest "$work/shown")" "$(rest "$log")"
is '--show: holders' "$(sed -n '2,/^entries:/p' "$work/shown" | sed 's/  */ /g; s/ $//')" "listed addresses:
 ADDRESS SHARE LIMIT HELD
 127.0.0.5 2 3 2 at its share
 2001:db8::10 1 8 0
 127.0.0.6 0 1 0
other addresses:
 ADDRESS SHARE LIMIT HELD
 127.0.0.3 0 4 4 at its limit
entries:"
like '--show: entries' "$(sed -n '/^entries:/,$p' "$work/shown" | sed 's/  */ /g; s/ $//')" "entries:
 ADDRESS PORT STATE NUMBER LEASE LEFT QUESTION
 127.0.0.3 18511 pending [0-9a-f]{16} 0:01:00 0:0[01]:[0-9]{2} chatty.example. IN PTR
( 127.0.0.[35] 185[13][1-4] pending [0-9a-f]{16} [01]:0[01]:00 0:[0-9]{2}:[0-9]{2} (chatty|sign).example. IN PTR
){5}slots: 7, used 6, free 1, reserved 1"
# each word of a row begins or ends where its column's head does
aligned() {
    awk '/ADDRESS/ { heads = 0
                     for (at = 1; match(substr($0, at), /[^ ]+/); at += RSTART + RLENGTH - 1) {
                         first[++heads] = at + RSTART - 1
                         last[heads] = first[heads] + RLENGTH - 1
                     }
                     next }
        /^  / { rows++
                i = 0
                for (at = 1; i < heads && match(substr($0, at), /[^ ]+/); at += RSTART + RLENGTH - 1) {
                    begins = at + RSTART - 1
                    i++
                    if (begins != first[i] && begins + RLENGTH - 1 != last[i]) print
                } }
        END { print rows + 0 " rows" }' "$1"
}
is '--show: columns' "$(aligned "$work/shown")" '10 rows'
end TERM
is 'the end' "$code $(tail -n 1 "$log")" '0 llqd: stopped'
refused '--show of no file' "$work/none: No such file or directory" --show "$work/none"

# ---- every slot taken; IPv6 senders; at a listed limit; sections that are empty are left out
printf '127.0.0.5 1 1\n' >"$work/roster"
start --slots 2 --roster "$work/roster" --verbose --address 127.0.0.1
seen=0
kill -USR1 $host
logged 'an empty table' 'slots: 2, used 0, free 2, reserved 1'
is 'no datagram' "$(sed -n '/refused /p' "$log" | tail -n 1 | sed 's/  */ /g')" ' refused none'
is 'no entries' "$(grep -cE '^(other addresses|entries):' "$log")" 0
: >"$log"
message "$work/message" 'a.example b.example' "$(option 1 0 60)" "$(option 1 0 60)"
send
logged 'two questions: the first' '127.0.0.1:[0-9]+ setup a.example. PTR: granted, lease 60'
logged 'two questions: the second' '127.0.0.1:[0-9]+ setup b.example. PTR: full: every free slot is reserved'
seen=2
asks 'the other slot' 127.0.0.5 18531 a.example "$(option 1 0 60)" 'setup a.example. PTR: granted, lease 60'
asks 'every slot is taken' 127.0.0.3 18511 a.example "$(option 1 0 60)" 'setup a.example. PTR: full: every slot is taken'
asks 'at a listed limit' 127.0.0.5 18532 a.example "$(option 1 0 60)" 'setup a.example. PTR: full: at its limit of 1'
end TERM
if grep -q ' lo$' /proc/net/if_inet6 2>/dev/null; then
    start --address ::1 --verbose
    seen=0 server=::1
    ask ::1 18501 a.example +ednsopt=1:"$(option 1 0 60)" >/dev/null
    verbose 'an IPv6 sender' '\[::1\]:18501 setup a.example. PTR: granted, lease 60'
    server=127.0.0.1
    end TERM
else
    left_out 'an IPv6 sender: this machine has no ::1'
fi
start
granted 'without --verbose' 127.0.0.2 18501 a.example 60
is 'without --verbose: nothing is said' "$(cat "$log")" \
    "llqd: listening on 127.0.0.1 port $port"$'\nllqd: 16 slots, 0 entries taken up: no state file'
end TERM

# ---- --version, -h, errors of options: one line each
is '--version' "$(said --version)" $'llqd 0.5.0\nexit 0'
is '--version is llq.h'\''s' "$(sed -n 's/^#define LLQ_VERSION "\(.*\)".*/llqd \1/p' "$(dirname "$0")/../../include/llq.h")" "$("$LLQD" --version)"
is '-h and --help' "$(said -h)" "$(said --help)"
is '-h: exit 0, nothing on stderr' "$("$LLQD" -h 2>&1 >/dev/null; echo $?)" 0
like '-h' "$("$LLQD" -h)" 'usage: llqd .*'
for one in address port slots weeks roster state clock-wait verbose show version; do
    like "-h: --$one is there" "$("$LLQD" -h | grep -c -- "--$one\b")" '[1-9]'
done
refused 'a port too large' "--port '65536' is not a number from 1 to 65535" --port 65536
refused 'port 0' "--port '0' is not a number from 1 to 65535" --port 0
refused 'a port with a letter' "--port '5352x' is not a number from 1 to 65535" --port 5352x
refused 'a negative port' "--port '-1' is not a number from 1 to 65535" --port=-1
refused 'slots 0' "--slots '0' is not a number from 1 to 64" --slots 0
refused 'slots 65' "--slots '65' is not a number from 1 to 64" --slots 65
like 'clock-wait' "$(said --clock-wait soon)" $'llqd: --clock-wait \'soon\' is not a number from [0-9]+ to [0-9]+\nexit 1'
refused 'nine addresses' 'more than 8 addresses' $(for i in 1 2 3 4 5 6 7 8 9; do echo --address 127.0.0.$i; done)
line=$'[^\n]*'
like 'not an address' "$(said --port $port --address sign.example)" "llqd: sign.example port $port: $line"$'\nexit 1'
like 'a word too many' "$(said --port $port more)" "llqd: $line'more'$line"$'\nexit 1'
like 'an option that is none' "$(said --port $port --nonsense)" "llqd: $line--nonsense$line"$'\nexit 1'
like 'an option without its value' "$(said --port)" "llqd: $line--port$line"$'\nexit 1'

passed
