#!/usr/bin/env bash
# 100,000 damaged datagrams to a build with the address and undefined-behaviour checkers, and 20,000 to one with weeks of thirteen
# bits. Ends by itself, in under 40 seconds.
set -u
cd "$(dirname "$0")/../.."
port=${PORT:-15600} llqd=${LLQD_CHECKED:-target/host/llqd-checked} count=${COUNT:-100000} seed=${SEED:-$RANDOM}
tools=target/host/test
work=$(mktemp -d)
host=
trap '[ -z "$host" ] || { kill -9 $host; wait $host; } 2>/dev/null; rm -rf "$work"' EXIT
passed=0
faults='runtime error|Sanitizer|SUMMARY:|ERROR:'
fail() { echo "damage test: $1 (SEED=$seed)" >&2; grep -aE "$faults|^llqd: " "$work/err" 2>/dev/null | tail -n 5 >&2; exit 1; }

bash host/test/tools.sh || fail 'the client cannot be built'
[ -n "${LLQD_CHECKED:-}" ] || make --silent -C host ../target/host/llqd-checked || fail 'the checked host cannot be built'
# the checkers are in it: otherwise nothing is checked
grep -aq __asan_init "$llqd" && grep -aq __ubsan_handle "$llqd" || fail "$llqd is built without the checkers"
passed=$((passed + 1))
printf '127.0.0.5 2 4\n127.0.0.11 3 6\n' >"$work/roster"

# sent BITS COUNT: so many, to a table of these weeks
sent() {
    ASAN_OPTIONS=abort_on_error=0:exitcode=86 UBSAN_OPTIONS=print_stacktrace=1:halt_on_error=1:exitcode=86 \
        $llqd --port $port --slots 24 --weeks $1 --roster "$work/roster" --state "$work/table.$1" --verbose 2>"$work/err" &
    host=$!
    line=$(timeout 40 $tools/client damage 127.0.0.1 $port 127.0.0.5 $2 $seed 2>&1) || fail "$line"
    passed=$((passed + 1))
    kill -0 $host 2>/dev/null || fail 'the host has ended'
    probe=$($tools/client probe 127.0.0.1 $port 127.0.0.5 3 10 2000 2>&1) || fail "$probe"
    passed=$((passed + 1))
    # the host's own count: none of the datagrams was lost on the way
    kill -USR1 $host
    for _ in $(seq 50); do
        seen=$(sed -n 's/^ *datagrams *\([0-9]*\):.*/\1/p' "$work/err" | tail -n 1)
        [ -z "$seen" ] || break
        sleep 0.1
    done
    [ "${seen:-0}" -ge $2 ] || fail "the host counts ${seen:-no} datagrams of $2"
    passed=$((passed + 1))
    kill -TERM $host
    for _ in $(seq 100); do kill -0 $host 2>/dev/null || break; sleep 0.1; done
    ! kill -0 $host 2>/dev/null || fail 'SIGTERM: it has not ended after 10 s'
    wait $host
    code=$?
    host=
    [ $code = 0 ] || fail "SIGTERM: exit $code"
    passed=$((passed + 1))
    ! grep -aqE "$faults" "$work/err" || fail 'a fault was found'
    passed=$((passed + 1))
    refused=$(sed -n 's/^ *refused  *\([0-9]*: .*\)/\1/p' "$work/err" | tail -n 1)
    echo "damage test: weeks of $1 bits: ${line#damage: }; the host refused by number $refused"
}
sent 10 $count
sent 13 $((count / 5))
echo "damage test: $passed checks passed"
