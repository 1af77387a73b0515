# What the host's tests share: a network of their own, the host started and ended, dig as its client, and the checks.
# A test sources this file, names the commands that it needs (need), goes into its own network (alone), and ends with `passed`.
set -u
export LC_ALL=C TZ=UTC
test=$(basename "$0" .sh)
LLQD=$(realpath -m "${LLQD:-$(dirname "${BASH_SOURCE[0]}")/../../target/host/llqd}")
checks=0
host=              # process id of the host under test, empty if none runs
port=              # its port
log=               # its lines
under=()           # what it is started with, as env, setpriv or nsenter: something that becomes the host
server=127.0.0.1   # where dig asks
via=()             # what dig is started with
patience=3         # seconds that dig waits for a reply
type=PTR           # the type that dig asks for
mounted=()         # folders to unmount with it

fail() { echo "$test: $1" >&2; exit 1; }
left_out() { echo "$test: left out: $1"; }
passed() { echo "$test: $checks checks passed"; exit 0; }
check() { checks=$((checks + 1)); }

# ---- the test itself

# need COMMAND PACKAGE: the command is there, or the package that has it can be installed
need() {
    command -v "$1" >/dev/null && return
    [ -n "${LLQ_ALONE:-}" ] || { apt-get update -qq && apt-get install -y -qq "$2"; } >/dev/null 2>&1
    command -v "$1" >/dev/null
}

# Go on in a network and a mount table of one's own, where they can be had: no port is in use there, nobody else's datagrams
# come in, and nothing stays mounted. own=1 where it is so.
alone() {
    local how
    if [ -z "${LLQ_ALONE:-}" ]; then
        [ -x "$LLQD" ] || fail "$LLQD is not there; make it first"
        need dig bind9-dnsutils || { left_out "all of it: dig (bind9-dnsutils) cannot be had"; passed; }
        for how in '-n -m' '-r -n -m'; do
            unshare $how ip link set lo up 2>/dev/null && LLQ_ALONE=1 exec unshare $how "$BASH" "$0"
        done
        export LLQ_ALONE=0
    fi
    own=$LLQ_ALONE
    [ "$own" = 0 ] || ip link set lo up
    work=$(mktemp -d) && log=$work/log && table=$work/table && port=$(free_port)
    trap clean EXIT
    trap 'exit 1' INT TERM HUP
}

clean() {
    local code=$? one
    trap '' INT TERM HUP
    { for one in $(jobs -pr); do kill -9 "$one"; wait "$one"; done; } 2>/dev/null
    for one in ${mounted[@]+"${mounted[@]}"}; do umount -l "$one"; done 2>/dev/null
    chmod -R u+rwX "$work" 2>/dev/null
    rm -rf "$work"
    exit $code
}

# A UDP port that nobody uses, below those that the system hands out.
free_port() {
    local try
    for try in $(seq 100); do
        try=$((18000 + RANDOM % 500))
        grep -qi ":$(printf %04x $try) " /proc/net/udp /proc/net/udp6 2>/dev/null || { echo $try; return; }
    done
    fail 'no port is free'
}

# await SECONDS COMMAND..: try it until it is true; false if it is not in that time
await() {
    local until=$((SECONDS + 1 + $1))
    shift
    while ! "$@"; do
        [ $SECONDS -lt $until ] || return 1
        sleep 0.05
    done
}

# ---- checks

is() { if [ "$2" = "$3" ]; then check; else fail "$1: '$2', not '$3'"; fi; }
like() { if [[ $2 =~ ^($3)$ ]]; then check; else fail "$1: '$2', not like '$3'"; fi; }
between() { if [[ $2 =~ ^[0-9]+$ ]] && [ "$2" -ge "$3" ] && [ "$2" -le "$4" ]; then check; else fail "$1: '$2', not $3 to $4"; fi; }

# logged WHAT LINE [SECONDS]: a line of the host, as an extended regular expression, is there or comes
logged() {
    if await "${3:-8}" grep -qxE -- "$2" "$log"; then check; else fail "$1: no line '$2', but: $(tail -n 12 "$log")"; fi
}
lines() { grep -cxE -- "$1" "$log"; }

# lives WHAT SEEN LEASE SINCE: what is left of a lease that was given at SINCE (EPOCHSECONDS), with slack for a busy machine and
# for the whole seconds that the host counts in at each restart
lives() { between "$1" "$2" $(($3 - (EPOCHSECONDS - $4) - 4)) $(($3 - (EPOCHSECONDS - $4) + 6)); }

# ---- the host

begin() { : >"$log"; ${under[@]+"${under[@]}"} "$LLQD" --port "$port" "$@" 2>>"$log" & host=$!; }
ready() { grep -qE '^llqd: [0-9]+ slots, [0-9]+ entr(y|ies) taken up' "$log" || gone; }
gone() { ! kill -0 "$host" 2>/dev/null; }

# start OPTION..: the host, until it is ready
start() {
    begin "$@"
    await 15 ready && ! gone || fail "the host did not start: $(tail -n 3 "$log")"
}

# finish: wait for the host's end; its exit code in $code
finish() {
    { await 10 gone; } 2>/dev/null || fail "the host did not end within 10 s${1:+ of $1}: $(tail -n 3 "$log")"
    { wait "$host"; code=$?; } 2>/dev/null
    host=
}
end() { kill -"$1" "$host"; finish "SIG$1"; }

# said OPTION..: what a host prints that ends by itself, and its exit code
said() { timeout -k 2 10 ${under[@]+"${under[@]}"} "$LLQD" "$@" 2>&1 </dev/null; echo "exit $?"; }

# refused WHAT LINE OPTION..: it says this one line, and exit 1
refused() { is "$1" "$(said "${@:3}")" "llqd: $2"$'\nexit 1'; }

# unsound WHAT NAME: the file of this name is refused as not sound, and left as it is; then it is removed
unsound() {
    local sum=$(stat -c '%i %Y' "$work/$2"; head -c 100000 "$work/$2" | sha256sum)
    refused "$1" "$work/$2: not a sound table; it is left as it is" --port $port --state "$work/$2"
    refused "$1: --show" "$work/$2: not a sound table; it is left as it is" --show "$work/$2"
    is "$1: the file" "$(stat -c '%i %Y' "$work/$2"; head -c 100000 "$work/$2" | sha256sum)" "$sum"
    is "$1: no other file" "$(ls "$work" | grep -c "^$2")" 1
    rm "$work/$2"
}

# ---- its client

option() { printf '%04x%04x%04x%016x%08x' "${4:-1}" "$1" "${5:-0}" "$2" "$3"; }

# ask FROM PORT NAME [WORD..]: what dig prints
ask() {
    timeout $((patience + 9)) ${via[@]+"${via[@]}"} dig @"$server" -p "$port" -b "$1#$2" +tries=1 +time="$patience" +nocookie \
        "${@:4}" -t "$type" -q "$3" 2>&1
}

# llq FROM PORT NAME OPCODE NUMBER LEASE: "error number lease" of the reply's LLQ option; nothing where none came
llq() {
    ask "$1" "$2" "$3" +ednsopt=1:"$(option "$4" "$5" "$6")" |
        sed -n 's/^; LLQ: Version: 1, Opcode: '"$4"', Error: \([0-9]*\), Identifier: \([0-9]*\), Lifetime: \([0-9]*\).*/\1 \2 \3/p'
}

# granted WHAT FROM PORT NAME LEASE: a setup that is granted; its number in $number, and in $not_before and $not_after when that was
granted() {
    not_before=${EPOCHREALTIME/./}
    set -- "$1" "$5" $(llq "$2" "$3" "$4" 1 0 "$5")
    not_after=${EPOCHREALTIME/./}
    is "$1" "${3:-none} ${5:-none}" "0 $2"
    number=$4
}

# tells WHAT FROM PORT NAME LEASE NUMBER SENT: a setup or a response is told the number of the entry granted last and, in $told,
# what is left of its lease: no more and no less than the time since explains, which the host counts in whole seconds
tells() {
    local lease=$5 least=$(((${EPOCHREALTIME/./} - not_after) / 1000000))
    set -- "$1" $(llq "$2" "$3" "$4" 1 "$6" "$7")
    is "$1" "${2:-none} ${3:-none}" "0 $number"
    told=$4
    between "$1: what is left" "$told" $((lease - (${EPOCHREALTIME/./} - not_before) / 1000000 - 1)) $((lease - least))
}
# found WHAT FROM PORT NAME LEASE: a setup again, which asks for another lease
found() { tells "$@" 0 60; }
# answered WHAT FROM PORT NAME LEASE SENT: a response with this lease is right
answered() { tells "${@:1:5}" "$number" "$6"; }

# established WHAT FROM PORT NAME LEASE: setup and response; its number in $number
established() {
    granted "$@"
    set -- "$1" $(llq "$2" "$3" "$4" 1 "$number" "$5")
    is "$1: response" "${2:-none} ${3:-none}" "0 $number"
}

# full: of 6 slots with 2 kept for 127.0.0.5, a chatty client on many ports is held to its limit, another address is told that they are full,
# and the listed one still gets its share; the number of its first entry in $sign, when it was asked for in $since
full() {
    local i
    for i in 1 2 3 4; do granted "chatty setup $i" 127.0.0.3 1851$i chatty.example 3600; done
    is 'chatty setup 5: at its limit' "$(llq 127.0.0.3 18515 chatty.example 1 0 3600)" '1 0 60'
    is 'another address: every free slot is reserved' "$(llq 127.0.0.4 18521 other.example 1 0 3600)" '1 0 60'
    since=$EPOCHSECONDS
    established 'the listed address' 127.0.0.5 18531 sign.example 3600
    sign=$number
    granted 'its second' 127.0.0.5 18532 sign.example 3600
}

# message FILE NAMES OPTION..: a query as bytes; a question of type PTR for each name, an LLQ option for each of the options (hexadecimal)
message() {
    local file=$1 name label one questions= options=
    for name in $2; do
        for label in ${name//./ }; do questions+=$(printf '%02x' ${#label})$(printf %s "$label" | od -An -v -tx1 | tr -d ' \n'); done
        questions+=00000c0001
    done
    for one in "${@:3}"; do options+=$(printf '0001%04x' $((${#one} / 2)))$one; done
    one=12340100$(printf '%04x' $(wc -w <<<"$2"))000000000001${questions}00002905c000000000$(printf '%04x' $((${#options} / 2)))$options
    printf "$(sed 's/../\\x&/g' <<<"$one")" >"$file"
}

# ---- its table, as --show prints it

show() { ${under[@]+"${under[@]}"} "$LLQD" --show "${1:-$table}"; }
# entries [FILE]: ADDRESS PORT STATE NUMBER LEASE QUESTION, in order, without what is left
entries() { show "$@" | awk '/^entries:/ { on = 1; next } /^slots:/ { on = 0 } on && $1 != "ADDRESS" { $6 = ""; print }' | sort; }
# left PORT [FILE]: seconds that its entry has left
left() { show "${@:2}" | awk -v port="$1" '$2 == port && split($6, t, ":") == 3 { print t[1] * 3600 + t[2] * 60 + t[3] }'; }
used() { show "$@" | sed -n 's/^slots: .* used \([0-9]*\),.*/\1/p'; }

# ---- its file

file() { stat -c '%i %Y %s' "${1:-$table}" && sha256sum <"${1:-$table}"; }
# later SECONDS: the file's time as it were had the clock been so far ahead when it was saved
later() { touch -d "@$(($(stat -c %Y "$table") + $1))" "$table"; }
stamp() { stat -c '%i %y' "$table"; }
# saved_again WHAT: it was saved since $saved, or is
new_stamp() { [ "$(stamp)" != "$saved" ]; }
saved_again() { await 5 new_stamp || fail "$1: the table was not saved again"; }
# bytes AT HEX [FILE]: these bytes there
bytes() { printf "$(sed 's/../\\x&/g' <<<"$2")" | dd of="${3:-$table}" bs=1 seek="$1" conv=notrunc status=none; }

# ---- its clock

# weeks_of BITS: the weeks of the table under test; $cycle is their seconds, $place_size the bytes of a place
weeks_of() { weeks=$1 cycle=$((604800 << $1)) place_size=$(($1 == 13 ? 8 : 4)); }
weeks_of 10
# gps TIME: seconds of the cycle; place: where the saved table stands in it
gps() { echo $((($1 - 315964800 + 18) % cycle)); }
place() { od -An --endian=big -tu$place_size -j1 -N$place_size "$table" | tr -d ' '; }
# put PLACE TIME: another place, and the file's time
put() {
    bytes 1 "$(printf "%0$((2 * place_size))x" $(($1 % cycle)))"
    touch -d "@$2" "$table"
}

# movable: the system's clock can be moved; the host is started with what moves it, the time since boot stays true
movable() {
    local preload
    preload=$(ls /usr/lib/*/faketime/libfaketimeMT.so.1 2>/dev/null | head -n 1)
    [ -n "$preload" ] || return
    moved=(env LD_PRELOAD="$preload" FAKETIME_TIMESTAMP_FILE="$work/time" FAKETIME_NO_CACHE=1 NO_FAKE_STAT=1)
    under=("${moved[@]}" FAKETIME_DONT_FAKE_MONOTONIC=1)
}
clock() { printf '%+d\n' "$1" >"$work/time.new" && mv "$work/time.new" "$work/time"; }
# at DATE: how far the clock is to be moved so that it reads DATE now
at() { printf '%+d' $(($(date -d "$1" +%s) - EPOCHSECONDS)); }

# went_back WHAT [MOVED]: it was saved again since $began, and its place is that of the clock, which is moved so far
went_back() {
    saved_again "$1"
    between "$1: its place" "$(place)" "$(gps $((began + ${2:-0})))" "$(gps $((EPOCHSECONDS + 1 + ${2:-0})))"
}
# go_on WHAT: a setup again, of the entry of number $sign, is told less each time
go_on() {
    local one=($(llq 127.0.0.2 18501 a.example 1 0 60)) two
    sleep 1.1
    two=($(llq 127.0.0.2 18501 a.example 1 0 60))
    is "$1: told again" "${one[*]:0:2}, ${two[*]:0:2}" "0 $sign, 0 $sign"
    between "$1: told less" "${two[2]}" $((one[2] - 30)) $((one[2] - 1))
}
# told: what is left, by a response with what a setup again was told; that is as much, or some seconds more
told() {
    local again=$(llq 127.0.0.2 18501 a.example 1 0 60 | cut -d ' ' -f 3)
    set -- $(llq 127.0.0.2 18501 a.example 1 $sign "${again:-0}")
    [ "${1:-4}" = 0 ] && [ $((again - $3)) -le 3 ] && echo "$3" || echo "${again:-none}, then $*"
}

# half_ahead: a table just under half a cycle ahead, saved a while ago; $work/copy has its entry, of 7,200 s and number $sign. With that while
# the system's clock may be more than half a cycle behind, a step ahead to the library: then leases go on from the table's clock, else from
# the system's.
half_ahead() {
    local ago what behind
    for ago in 2000 5000; do
        what="half a cycle, $ago s ago"
        cp -p "$work/copy" "$table"
        began=$EPOCHSECONDS
        put $(($(gps $began) + cycle / 2 - 3000)) $((began - ago))
        saved=$(stamp)
        lives "$what: shown" "$(left 18501)" $((7200 - ago)) $began
        start --state "$table"
        behind=$(sed -n "s/^llqd: the system clock is \([0-9]*\) s behind the table's; leases go on from the table\$/\1/p" "$log")
        between "$what" "$behind" $((cycle / 2 - 3000 - (EPOCHSECONDS - began) - 1)) $((cycle / 2 - 3000))
        lives "$what: told" "$(told)" $((7200 - ago)) $began
        saved_again "$what"
        [ $ago = 5000 ] || went_back "$what"
        end 9
        clock +20
        start --state "$table"
        lives "$what, killed: told" "$(told)" $((7180 - ago)) $began
        go_on "$what, killed"
        end TERM
        clock +0
    done
}

# across DATE WEEK: the second before which this week ends. Run across it, started again across it, and back across it
across() {
    local week=$(date -d "$1" +%s) roll
    rm -f "$table"
    roll=$((week - 8 - EPOCHSECONDS))
    clock $roll
    start --weeks $weeks --state "$table"
    since=$EPOCHSECONDS
    established "before $1" 127.0.0.2 18501 a.example 3600
    sign=$number
    is "before $1: its week" $(($(place) / 604800)) $2
    [ $((EPOCHSECONDS + roll)) -lt $week ] || fail "the machine is too slow: $1 was over before the setup"
    cp -p "$table" "$work/copy"
    before=$(entries)
    over() { [ $((EPOCHSECONDS + roll)) -gt $week ]; }
    await 20 over || fail "no $1"
    lives "across $1: told" "$(told)" 3600 $since
    is "across $1: entries" "$(entries)" "$before"
    lives "across $1: shown" "$(left 18501)" 3600 $since
    granted "after $1" 127.0.0.3 18502 b.example 3600
    is "after $1: its week" $(($(place) / 604800)) $((($2 + 1) % (cycle / 604800)))
    is "across $1: no step" "$(lines 'llqd: .*(clock|tick|passed).*')" 0
    end TERM
    later $roll
    start --state "$table"
    logged "started again after $1" "llqd: 16 slots, 2 entries taken up from $table"
    lives "started again after $1: told" "$(told)" 3600 $since
    end TERM
    cp -p "$work/copy" "$table"
    later $roll
    clock $((roll + 40))
    lives "started again across $1: shown" "$(left 18501)" 3560 $since
    start --state "$table"
    logged "started again across $1" "llqd: 16 slots, 1 entries taken up from $table"
    lives "started again across $1: told" "$(told)" 3560 $since
    end TERM
    cp -p "$work/copy" "$table"
    put "$(gps $((week + 40)))" $((week + 40))
    roll=$((week - 120 - EPOCHSECONDS))
    clock $roll
    saved=$(stamp) began=$EPOCHSECONDS
    start --state "$table"
    logged "back across $1" "llqd: the system clock is 1[56][0-9] s behind the table's; leases go on from the table"
    went_back "back across $1" $roll
    lives "back across $1: told" "$(told)" 3600 $began
    go_on "back across $1"
    end TERM
}
