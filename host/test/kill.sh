#!/usr/bin/env bash
# 100 times kill -9 under load, and 20 times with weeks of thirteen bits: every acknowledged entry is in the table's file afterwards,
# and no ended one. Every other time the file is left as a power cut would have left it (slowsync.c). Ends by itself, in about 40 seconds.
set -u
cd "$(dirname "$0")/../.."
port=${PORT:-15400} llqd=${LLQD:-target/host/llqd} rounds=${ROUNDS:-100} seed=${SEED:-$RANDOM}
tools=target/host/test
work=$(mktemp -d)
host= keeper=
trap 'for p in $host $keeper; do kill -9 $p; wait $p; done 2>/dev/null; rm -rf "$work"' EXIT
fail() { echo "kill test: $1 (SEED=$seed, round $round)" >&2; [ ! -s "$work/err" ] || tail -n 3 "$work/err" >&2; exit 1; }

round=0
bash host/test/tools.sh || fail 'the client cannot be built'
printf '127.0.0.21 3 5\n127.0.0.22 2 6\n' >"$work/roster"
RANDOM=$seed
passed=0

# under_load BITS PORT ROUNDS: so many times, on a table of these weeks
under_load() {
    local acked=0 table=$work/table.$1 log=$work/log.$1 power now line
    local command=($llqd --port $2 --slots 36 --weeks $1 --roster "$work/roster" --state "$table")
    $tools/client keep 127.0.0.1 $2 "$log" 90 $seed 127.0.0.{21..30} 2>>"$work/err" &
    keeper=$!
    for round in $(seq $3); do
        power=$((round % 2))
        if [ $power = 1 ]; then
            [ ! -e "$table" ] || cp -p "$table" "$table.kept"
            LD_PRELOAD=$PWD/$tools/slowsync.so SLOWSYNC_MS=$((RANDOM % 4)) SLOWSYNC_KEPT=$table "${command[@]}" 2>>"$work/err" &
        else
            "${command[@]}" 2>>"$work/err" &
        fi
        host=$!
        sleep 0.$((RANDOM % 25 + 20))
        kill -9 $host 2>/dev/null || fail 'the host had ended by itself'
        wait $host 2>/dev/null
        host=
        [ $power = 0 ] || mv "$table.kept" "$table" || fail 'no file was synced'
        kill -0 $keeper 2>/dev/null || fail 'the client has ended'
        line=$($tools/client check "$table" "$log" 2>&1) || fail "$line"
        now=${line#check: } now=${now%% *}
        [ $now -gt $acked ] || fail "nothing was acknowledged: $line"
        acked=$now passed=$((passed + 1))
    done
    [ $acked -ge $(($3 * 20)) ] || fail "only $acked operations were acknowledged"
    { kill $keeper; wait $keeper; } 2>/dev/null
    keeper=
    echo "kill test: weeks of $1 bits, the last ${line#check: }"
}
under_load 10 $port $rounds
under_load 13 $((port + 10)) $((rounds / 5))
echo "kill test: $passed checks passed"
