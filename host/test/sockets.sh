#!/usr/bin/env bash
# Where the host listens: IPv4, IPv6, wildcard addresses (the reply leaves from the address that was asked: dig takes no other),
# link-local senders, a port in use.
. "$(dirname "$0")/lib.sh"
alone

# ---- a port in use: said before anything else is done
start
is 'IPv4 by default' "$(head -n 1 "$log")" "llqd: listening on 127.0.0.1 port $port"
is 'no state file' "$(tail -n 1 "$log")" 'llqd: 16 slots, 0 entries taken up: no state file'
granted '127.0.0.1' 127.0.0.2 18501 a.example 3600
refused 'a port in use' "127.0.0.1 port $port: Address already in use" --port $port
mkfifo "$work/fifo"
refused 'a port in use, before the state file' "127.0.0.1 port $port: Address already in use" --port $port --state "$work/fifo"
refused 'a port in use, before a new state file' "127.0.0.1 port $port: Address already in use" --port $port --state "$work/new"
is 'no file is made then' "$(ls "$work")" $'fifo\nlog'
granted 'the first host is as it was' 127.0.0.2 18502 a.example 3600
end TERM
refused 'an address twice' "127.0.0.1 port $port: Address already in use" --port $port --address 127.0.0.1 --address 127.0.0.1
refused 'an address that is not here' "192.0.2.77 port $port: Cannot assign requested address" --port $port --address 192.0.2.77

# ---- 0.0.0.0: asked at 127.0.0.7, the reply comes from there
start --address 0.0.0.0
is '0.0.0.0' "$(head -n 1 "$log")" "llqd: listening on 0.0.0.0 port $port"
for server in 127.0.0.1 127.0.0.7 127.9.9.9; do
    granted "0.0.0.0 asked at $server" 127.0.0.2 18501 at-$server.example 3600
done
end TERM

# ---- many datagrams of one sender in one lot: each has its reply, of one length or of several, and also too long for the link
# burst WHAT ADDRESS MESSAGE..: sent while the host stands still, so that it finds them together
burst() {
    local one want='' got='' of=${*:3}
    exec 7<>"/dev/udp/$2/$port"
    kill -STOP $host
    for one in $of; do cat "$work/$one" >&7; done
    kill -CONT $host
    for one in $of; do
        want+="$(stat -c %s "$work/$one") $(head -c 2 "$work/$one" | od -An -tx1)"$'\n'
        timeout 5 dd bs=2000 count=1 of="$work/came" <&7 2>/dev/null
        got+="$(stat -c %s "$work/came") $(head -c 2 "$work/came" | od -An -tx1)"$'\n'
    done
    exec 7<&-
    is "$1" "$got" "$want"
}
label=$(printf 'x%.0s' $(seq 60))
long=$label.$label.$label.$label
message "$work/small" a.example "$(option 2 77 60)"
message "$work/other" other.example "$(option 2 77 60)"
message "$work/large" "$long $long $long $long $long" $(for i in 77 78 79 80 81; do option 2 $i 60; echo; done)
start
burst 'a lot of one length' 127.0.0.1 $(yes small | head -n 60)
burst 'a lot of two lengths' 127.0.0.1 small small other other small other small small small
burst 'long ones' 127.0.0.1 $(yes large | head -n 60)
kill -USR1 $host
logged 'each was answered' '  datagrams  129: answered 129, refused 0, link-local 0'
logged 'each was sent' '  replies    held 0, dropped 0, not sent 0'
if [ "$own" = 0 ]; then
    left_out 'replies too long for the link: no network of its own can be had'
else
    mtu=$(cat /sys/class/net/lo/mtu 2>/dev/null || echo 65536)
    ip link set lo mtu 1280
    burst 'too long for the link' 127.0.0.1 $(yes large | head -n 20) small small
    ip link set lo mtu "$mtu"
fi
end TERM

if ! grep -q ' lo$' /proc/net/if_inet6 2>/dev/null; then
    left_out 'IPv6: this machine has no ::1'
    passed
fi

# ---- ::1, and :: alone, which serves IPv4 too; the sender is the same address by either way
server=::1
start --address ::1
is '::1' "$(head -n 1 "$log")" "llqd: listening on ::1 port $port"
established 'asked at ::1' ::1 18501 a.example 3600
end TERM

[ "$own" = 0 ] || for one in 7 8; do ip addr add 2001:db8::$one/128 dev lo nodad; done
both() {
    local from
    start "$@" --state "$work/state" --slots 16
    is "$*: the lines" "$(grep -c '^llqd: listening on' "$log")" $(($# / 2))
    for server in 127.0.0.1 127.0.0.7; do granted "$* asked at $server" 127.0.0.2 18501 at-$server.example 3600; done
    server=::1
    granted "$* asked at ::1" ::1 18502 a.example 3600
    if [ "$own" != 0 ]; then
        server=2001:db8::7
        for from in 2001:db8::8 ::1; do granted "$* asked at $server from $from" $from 18503 a.example 3600; done
    fi
    end TERM
    is "$*: an IPv4 sender is shown as IPv4" "$(entries "$work/state" | grep -c '^127.0.0.2 18501 pending ')" 2
    rm "$work/state"
}
[ "$own" != 0 ] || left_out 'IPv6 addresses beside ::1, and link-local senders: no network of its own can be had'
both --address ::
both --address :: --address 0.0.0.0
both --address 0.0.0.0 --address ::

# ---- one at each address, the roster's IPv4 address known on ::
printf '127.0.0.5 1 1\n' >"$work/roster"
start --address :: --roster "$work/roster" --slots 1
server=127.0.0.1
is 'on :: the slot is reserved for the listed IPv4 address' "$(llq 127.0.0.2 18501 a.example 1 0 60)" '1 0 60'
granted 'who gets it' 127.0.0.5 18501 a.example 3600
end TERM
[ "$own" != 0 ] || passed

# ---- link-local senders: two links to another network, the same addresses on both
unshare -n sleep 100 &
peer=$!
other_net() { [ "$(readlink /proc/$peer/ns/net)" != "$(readlink /proc/self/ns/net)" ] && [ -n "$(readlink /proc/$peer/ns/net)" ]; }
await 5 other_net || fail 'no second network'
linked=1
for i in 0 1; do
    ip link add h$i type veth peer name c$i netns $peer || { linked=0; break; }
    ip link set h$i addrgenmode none
    nsenter -t $peer -n ip link set c$i addrgenmode none
    ip link set h$i up
    nsenter -t $peer -n ip link set c$i up
    ip addr add fe80::1/64 dev h$i nodad
    nsenter -t $peer -n ip addr add fe80::5/64 dev c$i nodad
done 2>/dev/null
[ $linked = 1 ] || { left_out 'link-local senders: no veth pair can be had'; passed; }
ip addr add fe80::2/64 dev h0 nodad
via=(nsenter -t $peer -n)
up() { ip -6 addr show dev h1 | grep -q fe80::1 && ! ip -6 addr show | grep -q tentative; }
await 5 up || fail 'the links did not come up'

patience=1
start --address ::
server=fe80::1%c0
is 'a link-local sender on ::' "$(llq :: 18501 a.example 1 0 3600)" ''
logged 'the line' "llqd: fe80::5 port 18501: a link-local sender is refused here, its link is not part of its address \(1 so far; see --address in llqd\(8\)\)"
server=fe80::1%c1
is 'one of the other link' "$(llq :: 18502 a.example 1 0 3600)" ''
server=127.0.0.1 via=()
granted 'others are served' 127.0.0.2 18501 a.example 3600
kill -USR1 $host
logged 'both are counted' '  datagrams +3: answered 1, refused 0, link-local 2'
logged 'no entry of theirs' 'slots: 16, used 1, free 15, reserved 0'
is 'one line a minute' "$(lines 'llqd: fe80::.*')" 1
end TERM

via=(nsenter -t $peer -n)
start --address fe80::1%h0 --state "$work/state"
is 'on one interface' "$(head -n 1 "$log")" "llqd: listening on fe80::1%h0 port $port"
server=fe80::1%c0 patience=3
established 'a link-local sender is served there' :: 18501 a.example 3600
server=fe80::1%c1 patience=1
is 'not one of the other link' "$(llq :: 18502 a.example 1 0 3600)" ''
is 'its entry' "$(entries "$work/state" | cut -d ' ' -f 1-3)" 'fe80::5 18501 established'
end TERM

start --address fe80::1%h0 --address fe80::2%h0 --address 127.0.0.1
server=fe80::2%c0 patience=3
granted 'two addresses of one interface' :: 18501 a.example 3600
server=127.0.0.1 via=()
granted 'and IPv4 beside them' 127.0.0.2 18501 a.example 3600
end TERM
refused 'two interfaces' '--address fe80::1%h1: link-local addresses of two interfaces cannot be told apart' \
    --port $port --address fe80::1%h0 --address fe80::1%h1
refused 'no interface' '--address fe80::1: a link-local address needs its interface, as fe80::1%eth0' --port $port --address fe80::1
refused 'an interface for all addresses' '--address ::%2: only a link-local address has an interface' --port $port --address ::%2
like 'an interface that is not here' "$(said --port $port --address fe80::1%nosuch)" $'llqd: [^\n]*fe80::1%nosuch[^\n]*\nexit 1'

passed
