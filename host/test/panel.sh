#!/usr/bin/env bash
# The panel: its handshake over IPv4 and IPv6, from a fixed port, kept or ended; the setup sent again; refusals in words; what is no
# reply is ignored.
. "$(dirname "$0")/lib.sh"
alone
panel=$(dirname "$LLQD")/panel
[ -x "$panel" ] || fail "$panel is not there; make it first"
# says OPTION..: what the panel prints, numbers left out, and its exit code
says() { timeout -k 2 20 "$panel" "$@" 2>&1 | sed -E 's/number [0-9a-f]{16}/number N/'; echo "exit ${PIPESTATUS[0]}"; }
setup='setup: granted number N, lease 3600 s'
setup_found='setup: granted number N, lease 3(600|59[0-9]) s' # of an entry that is there: what is left
again='setup again after 2 s: the same number, 3(600|59[0-9]) s left'
# steps LAST [AGAIN]: a handshake
steps() { printf '%s\n' "$setup" "${@:2}" 'response: established, 3(600|59[0-9]) s left' 'refresh: renewed, lease 3600 s' "$1" 'exit 0'; }
ended='end: the entry is gone' kept='kept: the entry stays for 3600 s'
# waited WHAT SAID SECONDS: what the setup again and the response were told, by the seconds that the panel took
waited() {
    set -- "$1" "$3" $(sed -n 's/.* \([0-9]*\) s left$/\1/p' <<<"$2")
    between "$1: what the setup again was told" "${3:-}" $((3600 - $2 - 1)) 3598
    between "$1: what the response was told" "${4:-}" $((3600 - $2 - 1)) "$3"
}

v6=()
! grep -q ' lo$' /proc/net/if_inet6 2>/dev/null || v6=(--address ::1)
start --state "$table" --slots 8 --address 127.0.0.1 ${v6[@]+"${v6[@]}"}
began=$EPOCHSECONDS said=$(says 127.0.0.1 $port sign.example)
like 'a handshake' "$said" "$(steps "$ended" "$again")"
waited 'a handshake' "$said" $((EPOCHSECONDS - began))
is 'its entry is gone' "$(used)" 0
like 'a name with a dot behind it' "$(says --once 127.0.0.1 $port Sign.Example.)" "$(steps "$ended")"
if [ ${#v6[@]} != 0 ]; then
    like 'IPv6' "$(says --once --keep --local-port 18560 ::1 $port sign.example)" "$(steps "$kept")"
    is 'IPv6: its entry' "$(entries | cut -d ' ' -f 1-3)" '::1 18560 established'
    like 'IPv6, ended' "$(says --once --local-port 18560 ::1 $port sign.example)" "$(setup=$setup_found steps "$ended")"
else
    left_out 'IPv6: this machine has no ::1'
fi
began=$EPOCHSECONDS
for one in 1 2 3 4; do
    like "kept, $one" "$(says --once --keep --local-address 127.0.0.9 --local-port 1857$one 127.0.0.1 $port sign.example)" "$(steps "$kept")"
done
before=$(entries)
is 'four entries of one address' "$(cut -d ' ' -f 1-3 <<<"$before")" "$(printf '127.0.0.9 1857%s established\n' 1 2 3 4)"
is 'a fifth' "$(says --local-address 127.0.0.9 --local-port 18575 127.0.0.1 $port sign.example)" \
    $'panel: setup refused: the server is full, try again after 60 s\nexit 1'
# it finds its entry, and asks for a whole lease again
said=$(says --keep --local-address 127.0.0.9 --local-port 18571 127.0.0.1 $port sign.example)
like 'again from its port' "$said" "$(setup=$setup_found steps "$kept" "$again")"
waited 'again from its port' "$said" $((EPOCHSECONDS - began))
is 'the same entries, the same numbers' "$(entries)" "$before"
end TERM

is 'an empty label' "$(says 127.0.0.1 $port a..example)" $'panel: \'a..example\' is not a name: a label is empty\nexit 1'
like 'a long label' "$(says 127.0.0.1 $port $(printf 'x%.0s' $(seq 64)))" $'panel: .* is not a name: a label has 64 bytes, 63 are the most\nexit 1'
like 'no such port' "$(says 127.0.0.1 65536 a.example)" $'panel: port .65536. is not a number from 1 to 65535\nexit 1'

# a server whose right reply comes last, behind the query itself, another message number, another question and another LLQ number;
# of some names it tells a setup that comes again another number or more than before, or leaves too little to wait for that
cat >"$work/server" <<'END'
use Socket;
socket(S, AF_INET, SOCK_DGRAM, 0) and bind(S, sockaddr_in($ARGV[0], INADDR_LOOPBACK)) or exit 1;
print "ready\n";
close STDOUT;
alarm 20;
while (my $from = recv(S, my $query, 2000, 0)) {
    my $reply = $query;
    substr($reply, 2, 1) = "\x85";
    if (substr($query, -12, 8) eq "\0" x 8) {
        my $again = $setups{substr($query, 12)}++;
        substr($reply, -12, 8) = pack("Q>", $again && $query =~ /other/ ? 43 : 42);
        substr($reply, -4) = pack("N", $query =~ /short/ ? 19 : $again && $query =~ /more/ ? 3601 : 3600);
    }
    my ($id, $name, $number, $short) = ($reply) x 4;
    substr($id, 0, 1) ^= "\xff";
    substr($name, 13, 1) ^= "\x01";
    substr($number, -12, 8) = pack("Q>", 0);
    substr($short, -1) = "";
    send(S, $_, 0, $from) for $query, $id, $name, $number, $short, $reply;
}
END
if command -v perl >/dev/null; then
    perl "$work/server" $port >"$work/up" &
    helpers+=($!)
    await 10 grep -q ready "$work/up" || fail 'the server of wrong replies did not start'
    is 'what is no reply is ignored' "$(timeout 20 "$panel" --once 127.0.0.1 $port sign.example 2>&1 | head -n 1)" \
        'setup: granted number 000000000000002a, lease 3600 s'
    jobs=
    for one in sign other more short; do
        says 127.0.0.1 $port $one.example >"$work/$one" &
        jobs="$jobs $!"
    done
    wait $jobs
    like 'the right replies are taken' "$(cat "$work/sign")" "$(steps "$ended" "$again")"
    is 'another number' "$(cat "$work/other")" "$setup"$'\npanel: setup again: another number, 000000000000002b\nexit 1'
    is 'more than before' "$(cat "$work/more")" "$setup"$'\npanel: setup again: 3601 s left, more than before\nexit 1'
    is 'too little is left' "$(head -n 2 "$work/short")" $'setup: granted number N, lease 19 s\nresponse: established, 19 s left'
else
    left_out 'what is no reply: perl is not there'
fi
passed
