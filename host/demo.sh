#!/usr/bin/env bash
# The host with the example roster, a panel's handshake with it, and the table that is left.
# With --port-free it only says whether the port is free: `make run` asks that before it proves and builds anything.
set -eu
port=5352

# UDP sockets at 127.0.0.1, at any IPv4 address, or at :: (which may hold the IPv4 port too), by the kernel's tables
in_use() {
    local hex
    hex=$(printf %04X $port)
    grep -qs -E "^ *[0-9]+: (0100007F|0{8}|0{32}|0{16}FFFF00000100007F):$hex " /proc/net/udp /proc/net/udp6
}

if in_use; then
    echo "make run: UDP port $port on 127.0.0.1 is in use; stop the program that has it (ss -lunp 'sport = :$port' names it)" >&2
    exit 1
fi
[ "${1:-}" != --port-free ] || exit 0

cd "$(dirname "$0")/../target/host"
work=$(mktemp -d)
./llqd --port $port --slots 8 --roster ../../host/roster.example --state "$work/table" --verbose 2>"$work/log" &
host=$!
trap 'kill $host 2>/dev/null || true; rm -rf "$work"' EXIT
# its last line of the start says how many slots there are
for _ in $(seq 50); do
    grep -q '^llqd: [0-9]* slots' "$work/log" && break
    kill -0 $host 2>/dev/null || { cat "$work/log" >&2; exit 1; }
    sleep 0.1
done

echo "--- a panel at 127.0.0.1 asks for _arrivals._udp.museum.example, asks again as if the challenge had been lost, and keeps its entry"
./panel --keep 127.0.0.1 $port _arrivals._udp.museum.example
echo "--- the table, as llqd --show prints it"
./llqd --show "$work/table"
kill $host
wait $host
echo "--- what the host wrote"
cat "$work/log"
