#!/usr/bin/env bash
# A chatty address and a disk whose syncs take 20 ms: the listed address is answered all the same, and no reply leaves before
# its save. Then replies a second on the disk as it is. Ends by itself, in under 20 seconds.
set -u
cd "$(dirname "$0")/../.."
port=${PORT:-15500} llqd=${LLQD:-target/host/llqd} seed=${SEED:-$RANDOM}
tools=target/host/test
work=$(mktemp -d)
host= other=
trap 'for p in $host $other; do kill -9 $p; wait $p; done 2>/dev/null; rm -rf "$work"' EXIT
passed=0
fail() { echo "flood test: $1" >&2; [ ! -s "$work/err" ] || tail -n 3 "$work/err" >&2; exit 1; }

# start TABLE [MS]: with syncs slowed by so many milliseconds, or as they are
start() {
    local shim=()
    [ $# -lt 2 ] || shim=(env LD_PRELOAD="$PWD/$tools/slowsync.so" SLOWSYNC_MS=$2 SLOWSYNC_KEPT="$1")
    "${shim[@]}" $llqd --port $port --slots 64 --roster "$work/roster" --state "$1" 2>>"$work/err" &
    host=$!
}
end() { kill -9 $host; wait $host 2>/dev/null; host=; }

bash host/test/tools.sh || fail 'the client cannot be built'
printf '127.0.0.5 2 4 # the sign\n127.0.0.6 4 8 # a chatty one that is listed\n' >"$work/roster"

# ---- 1,024 datagrams under way, each changing the table: from an address that is not listed, then from one that is
for chatty in 127.0.0.3 127.0.0.6; do
    start "$work/flood" 20
    $tools/client load 127.0.0.1 $port 1024 15 $chatty >"$work/load" 2>&1 &
    other=$!
    sleep 1
    answered=1
    probes=$($tools/client probe 127.0.0.1 $port 127.0.0.5 20 150 500 2>&1) || answered=0
    kill $other || fail "the load ended before the probes: $(cat "$work/load")"
    wait $other
    loaded=$?
    [ $answered = 1 ] || fail "the sign beside $chatty: $probes; $(cat "$work/load")"
    passed=$((passed + 20))
    [ $loaded = 0 ] || fail "the chatty address $chatty: $(cat "$work/load")"
    other=
    echo "flood test: beside $chatty, syncs of 20 ms: $probes; $(cat "$work/load")"
    end
done

# ---- no reply before its save: what a power cut leaves has every acknowledged entry
$tools/client keep 127.0.0.1 $port "$work/log" 20 $seed 127.0.0.{21..30} 2>>"$work/err" &
other=$!
for round in 1 2 3 4; do
    start "$work/table" 20
    sleep 0.$((RANDOM % 30 + 60))
    end
    mv "$work/table.kept" "$work/table" || fail 'no file was synced'
    line=$($tools/client check "$work/table" "$work/log" 2>&1) || fail "$line (SEED=$seed)"
    passed=$((passed + 1))
done
acked=${line#check: } acked=${acked%% *}
[ $acked -ge 50 ] || fail "only $acked operations were acknowledged"
kill $other
wait $other 2>/dev/null
other=
echo "flood test: syncs of 20 ms: ${line#check: }"

# ---- the disk as it is: 32 under way
start "$work/plain"
line=$($tools/client load 127.0.0.1 $port 32 2 127.0.0.3 127.0.0.4 2>&1) || fail "$line"
end
rate=${line#load: } rate=${rate%% *}
[ "$rate" -ge 100 ] || fail "32 under way: $line"
passed=$((passed + 1))
echo "flood test: 32 under way: ${line#load: }"
echo "flood test: $passed checks passed"
