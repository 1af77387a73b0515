#!/usr/bin/env bash
# All tests of the host, one after the other, each with the time that it took; `bash host/test.sh NAME..` runs the named ones alone.
# Each ends by itself and says last how many checks passed; what cannot be had is named in one line and left out.
set -u
[ -z "${LLQD:-}" ] || export LLQD=$(realpath -m "$LLQD")
cd "$(dirname "$0")/test"
began=$EPOCHREALTIME checks=0 failed=
seconds() { awk -v from="$1" -v to="$EPOCHREALTIME" 'BEGIN { printf "%.1f s", to - from }'; }

for one in ${*:-handshake sockets clock weeks disk statefile roster words panel install kill flood damage}; do
    from=$EPOCHREALTIME
    said=$(timeout --foreground -k 15 90 bash $one.sh) && passed=$(sed -n '$s/^.*: \([0-9]*\) checks passed$/\1/p' <<<"$said") || passed=
    [ -z "$said" ] || echo "$said"
    echo "   $(seconds $from)"
    [ -n "$passed" ] && checks=$((checks + passed)) || failed+=" $one"
done

[ -z "$failed" ] || { echo "host test: failed:$failed ($(seconds $began))" >&2; exit 1; }
echo "host test: $checks checks passed ($(seconds $began))"
