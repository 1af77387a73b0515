#!/usr/bin/env bash
# The state file: what is not a regular file with a sound table is refused in one line and left as it is; the lock is on the file;
# nothing is written through a planted link. And stderr: closed, ended or stalled, it neither ends nor stalls the host.
. "$(dirname "$0")/lib.sh"
need strace strace && traced=1 || traced=0
alone

start --state "$table" --slots 4
established 'a table' 127.0.0.2 18501 a.example 3600
end TERM
is 'its file is its owner'\''s alone' "$(stat -c '%a %F %s' "$table")" '600 regular file 1593'
good=$(sha256sum <"$table")

# ---- not the name of a regular file
refused "--state ''" "--state '' is not the name of a file" --port $port --state ''
refused 'a folder that is not there' "$work/none/table: No such file or directory" --port $port --state "$work/none/table"
ln -s table "$work/link"
ln -s nowhere "$work/dangling"
mkfifo "$work/fifo"
mkdir "$work/folder"
refused 'a symbolic link' "$work/link: a symbolic link, not a regular file" --port $port --state "$work/link"
refused 'a dangling link' "$work/dangling: a symbolic link, not a regular file" --port $port --state "$work/dangling"
refused 'a FIFO' "$work/fifo: not a regular file" --port $port --state "$work/fifo"
refused 'a directory' "$work/folder: not a regular file" --port $port --state "$work/folder"
if mknod "$work/device" c 1 5 2>/dev/null; then # as /dev/zero
    refused 'a device' "$work/device: not a regular file" --port $port --state "$work/device"
    rm "$work/device"
else
    left_out 'a device: mknod is not allowed'
fi
if perl -MSocket -e 'socket(S, AF_UNIX, SOCK_STREAM, 0) && bind(S, pack_sockaddr_un($ARGV[0])) or exit 1' "$work/socket" 2>/dev/null; then
    refused 'a socket' "$work/socket: not a regular file" --port $port --state "$work/socket"
    rm "$work/socket"
else
    left_out 'a socket: perl is not there'
fi
for one in link dangling fifo folder; do
    like "--show of a $one" "$(said --show "$work/$one")" "llqd: $work/$one: [^"$'\n'"]*"$'\nexit 1'
done
is 'all are as they were' "$(cd "$work" && stat -c '%n %F' link dangling fifo folder; ls -A "$work")" \
    $'link symbolic link\ndangling symbolic link\nfifo fifo\nfolder directory\ndangling\nfifo\nfolder\nlink\nlog\ntable'
is 'the link'\''s file is as it was' "$(sha256sum <"$table")" "$good"

# ---- not a sound table
: >"$work/empty" && unsound 'an empty file' empty
head -c 1592 "$table" >"$work/short" && unsound 'a byte too short' short
head -c 1273 "$table" | tail -c 1000 >"$work/part" && unsound 'a part' part
{ cat "$table"; printf '\0'; } >"$work/long" && unsound 'a byte too long' long
cp "$table" "$work/sparse" && truncate -s 8G "$work/sparse" && unsound 'much too long' sparse
for at in 0 9 313 332 1592; do # the clock's kind, a line's kind, a slot's kind, an entry's number, the zeros of the last slot
    cp "$table" "$work/damaged"
    printf '\377' | dd of="$work/damaged" bs=1 seek=$at conv=notrunc status=none
    [ $at != 332 ] || dd if=/dev/zero of="$work/damaged" bs=1 seek=$at count=8 conv=notrunc status=none # number 0
    unsound "byte $at damaged" damaged
done

# ---- one host a file: by another name too, and after saves have put a new file in the old one's place
mkdir "$work/real"
cp "$table" "$work/real/table"
ln -s real "$work/other"
start --state "$work/real/table"
ln "$work/real/table" "$work/real/hard"
second() { refused "$1" "$2: in use by another llqd" --port $((port + 500)) --state "$2"; }
second 'a second host' "$work/real/table"
second 'a second host, by a hard link' "$work/real/hard"
second 'a second host, through a linked folder' "$work/other/table"
rm "$work/real/hard"
granted 'a save' 127.0.0.2 18502 b.example 3600
granted 'another save' 127.0.0.2 18503 c.example 3600
ln "$work/real/table" "$work/real/hard"
second 'a second host after saves' "$work/real/table"
second 'a second host after saves, by a hard link' "$work/real/hard"
second 'a second host after saves, through a linked folder' "$work/other/table"
is '--show of a table in use' "$(used "$work/other/table")" 3
granted 'the first host goes on' 127.0.0.2 18504 d.example 3600
is 'no lock file' "$(ls "$work/real")" $'hard\ntable'
end 9
start --state "$work/other/table"
logged 'free again after kill -9' "llqd: 4 slots, 4 entries taken up from $work/other/table"
end TERM
if [ $traced = 1 ] && strace -o /dev/null true 2>/dev/null; then
    under=(strace -f -o /dev/null -e trace=flock -e inject=flock:error=ENOLCK)
    refused 'a lock that fails' "$table: lock: No locks available" --port $port --state "$table"
    under=()
else
    left_out 'a lock that fails: strace cannot be had'
fi
is 'the first table is as it was' "$(sha256sum <"$table")" "$good"

# ---- two hosts under one name. The file is removed under the first; the second one's is not written over.
mkdir "$work/pair"
start --state "$work/pair/table" --slots 4
first=$host
rm "$work/pair/table"
port=$((port + 1))
: >"$work/log2" && log=$work/log2
start --state "$work/pair/table" --slots 4
granted 'the second host' 127.0.0.3 18505 b.example 3600
port=$((port - 1)) patience=1
is 'the first host: a change is held back' "$(llq 127.0.0.2 18505 a.example 1 0 3600)" ''
log=$work/log patience=3
logged 'the first host: the line' "llqd: $work/pair/table: not saved: another file stands in its place; trying again every second"
port=$((port + 1))
granted 'the second host goes on' 127.0.0.3 18506 c.example 3600
sleep 1.2
is 'the second host'\''s file' "$(entries "$work/pair/table" | cut -d ' ' -f 1,2)" $'127.0.0.3 18505\n127.0.0.3 18506'
end TERM
host=$first
port=$((port - 1))
end TERM
is 'the first host: stopped' "$code $(tail -n 1 "$log")" '1 llqd: stopped with changes that are not saved'

# ---- two hosts started at once without a file: one of them runs
for i in 1 2 3 4 5; do
    rm -f "$work"/pair/*
    "$LLQD" --port $port --state "$work/pair/table" 2>"$work/log" & host=$!
    "$LLQD" --port $((port + 1)) --state "$work/pair/table" 2>"$work/log2" & second=$!
    helpers+=($second)
    settled() { [ "$(cat "$work/log" "$work/log2" | grep -cE 'taken up|in use|in its place')" = 2 ]; }
    await 10 settled || fail "two at once: $(cat "$work/log" "$work/log2")"
    is "two at once, $i: one runs" "$(cat "$work/log" "$work/log2" | grep -cE "llqd: $work/pair/table: (in use by another llqd|another file stands in its place)")" 1
    kill -9 $host $second 2>/dev/null
    wait $host $second 2>/dev/null
    host=
done

# ---- killed between the new file's name and the sync of its folder: the next host syncs what it takes up before it tells of it
if bash "$(dirname "$0")/tools.sh" 2>/dev/null; then
    mkdir "$work/cut"
    start --state "$work/cut/table" --slots 4
    end TERM
    under=(env LD_PRELOAD="$(realpath "$(dirname "$0")/../../target/host/test/slowsync.so")" SLOWSYNC_MS=1500 SLOWSYNC_KEPT="$work/cut/table")
    start --state "$work/cut/table"
    granted_now() { [ "$(used "$work/cut/table")" = 1 ]; }
    patience=1
    not_before=${EPOCHREALTIME/./}
    llq 127.0.0.2 18501 a.example 1 0 3600 >"$work/early" &
    early=$!
    await 10 granted_now || fail 'slow syncs: the new file did not come'
    not_after=${EPOCHREALTIME/./}
    number=$(printf %u "0x$(entries "$work/cut/table" | cut -d ' ' -f 4)")
    end 9
    wait $early
    is 'killed before the folder was synced: no reply' "$(cat "$work/early")" ''
    is 'killed before the folder was synced: what a power cut leaves' "$(used "$work/cut/table.kept")" 0
    patience=8
    start --state "$work/cut/table"
    found 'the same setup after it' 127.0.0.2 18501 a.example 3600
    is 'the same setup after it: what a power cut leaves' "$(used "$work/cut/table.kept")" 1
    end TERM
    under=() patience=3
else
    left_out 'killed before the folder was synced: the shim cannot be built'
fi

# ---- FILE.new planted or left over: not written through, and no hindrance
echo precious >"$work/precious"
plant() {
    rm -rf "$table".new
    $2 "$table.new"
    start --state "$table"
    number=$(llq 127.0.0.3 18511 $3.example 1 0 3600 | cut -d ' ' -f 1,3)
    is "FILE.new is $1: saved" "$number $(entries | grep -c " $3.example. ")" '0 3600 1'
    end TERM
    is "FILE.new is $1: not written through" "$(cat "$work/precious") $(ls "$work" | grep -c '^nowhere')" 'precious 0'
}
to_link() { ln -s precious "$1"; }
to_nowhere() { ln -s nowhere "$1"; }
to_hard() { ln "$work/precious" "$1"; }
plant 'a link' to_link p1
plant 'a dangling link' to_nowhere p2
plant 'a hard link' to_hard p3
rm "$table"
start --state "$table"
end TERM
plant 'a FIFO' mkfifo p4
plant 'left over' touch p5

# ---- descriptors 0 to 2 closed: none of them becomes a socket or a file of the host's
mkdir "$work/closed"
"$LLQD" --port $port --state "$work/closed/table" --verbose <&- >&- 2>&- &
host=$!
up() { local patience=1; [ -n "$(llq 127.0.0.4 18521 x.example 2 77 60)" ]; }
await 10 up || fail 'descriptors closed: no answer'
established 'descriptors closed' 127.0.0.2 18501 a.example 3600
for one in 0 1 2; do is "descriptor $one" "$(readlink /proc/$host/fd/$one)" /dev/null; done
end TERM
is 'descriptors closed: stopped' $code 0
is 'descriptors closed: the table' "$(used "$work/closed/table")" 1
is 'descriptors closed: its files' "$(ls "$work/closed") $(cat "$work/closed"/* | grep -ac llqd)" 'table 0'

# ---- a reader of stderr that ends: before the start, and after it
mkfifo "$work/pipe"
read_none() { :; }
read_two() { head -n 2 >/dev/null; }
for reader in read_none read_two; do
    $reader <"$work/pipe" &
    "$LLQD" --port $port --state "$table" --verbose 2>"$work/pipe" &
    host=$!
    await 10 up || fail "$reader: no answer"
    for i in 1 2 3; do is "$reader: answer $i" "$(llq 127.0.0.4 18521 x.example 2 77 60)" '4 77 0'; done
    established "$reader: a change" 127.0.0.5 18531 $reader.example 3600
    kill -USR1 $host
    is "$reader: after SIGUSR1" "$(llq 127.0.0.4 18521 x.example 2 77 60)" '4 77 0'
    end TERM
    is "$reader: stopped" $code 0
done
"$LLQD" --port $port --verbose 2>/dev/full &
host=$!
await 10 up || fail 'a full stderr: no answer'
end TERM
is 'a full stderr: stopped' $code 0

# ---- a reader that stalls: the pipe is full, the host answers on and ends; lines that were lost are counted
exec 9<>"$work/pipe"
drain() { timeout 1 cat <&9 >"$work/drained"; }
stall() { local i; for i in $(seq 2500); do printf junk >&7; done; }
"$LLQD" --port $port --state "$table" --verbose 2>"$work/pipe" &
host=$!
exec 7<>/dev/udp/127.0.0.1/$port
await 10 up || fail 'a stalled reader: no answer'
drain
first=$(grep -c '^127\.' "$work/drained") # the lines of `up`
stall
is 'a stalled reader: an answer' "$(llq 127.0.0.4 18521 x.example 2 77 60)" '4 77 0'
is 'a stalled reader: an end' "$(llq 127.0.0.5 18531 read_two.example 2 $number 0)" "0 $number 0"
drain
seen=$(grep -c '^127\.' "$work/drained")
between 'a stalled reader: lines that it got' $seen 20 2400
is 'a stalled reader: whole lines' "$(grep -cv '^127\.0\.0\.1:[0-9]* refused 3: .*[0-9]$' "$work/drained")" 0
kill -USR1 $host
drain
lost=$(sed -n 's/^llqd: \([0-9]*\) lines were lost$/\1/p' "$work/drained")
asked=$(sed -n 's/^  datagrams  *\([0-9]*\): .*/\1/p' "$work/drained")
between 'a stalled reader: lines lost' "$lost" 100 2500
is 'a stalled reader: each line was seen or counted' $((first + seen + lost)) "$asked"
stall
end TERM
is 'a stalled reader: stopped' $code 0
exec 7<&-

# ---- the same as another user than the pipe's, who cannot open it again
cp "$LLQD" "$work/llqd"
chmod 755 "$work"
other=(setpriv --reuid=65534 --clear-groups)
if [ "$(id -u)" = 0 ] && "${other[@]}" "$work/llqd" --version >/dev/null 2>&1; then
    drain
    "${other[@]}" "$work/llqd" --port $port --slots 64 --verbose 2>"$work/pipe" &
    host=$!
    await 10 up || fail 'another user: no answer'
    for i in $(seq 24); do granted "another user: setup $i" 127.0.0.$((i + 30)) 18540 a.example 3600; done
    for i in $(seq 40); do kill -USR1 $host; sleep 0.02; done
    is 'another user, a stalled reader: an answer' "$(llq 127.0.0.4 18521 x.example 2 77 60)" '4 77 0'
    end TERM
    is 'another user, a stalled reader: stopped' $code 0
else
    left_out 'a stalled reader of another user: setpriv cannot be had'
fi
exec 9<&-

passed
