#!/usr/bin/env bash
# A disk that fails: no space, a read-only folder or disk, a removed folder, a file size limit. The host goes on, holds back what it
# could not save, and saves it when there is room again.
. "$(dirname "$0")/lib.sh"
alone

# `spoil` makes saves fail, `mend` lets them pass again.
# scene WHAT REASON SECONDS: a host that runs meets it, holds back what changed for so long, and goes on when it is over
scene() {
    local what=$1 reason=$2 kept jobs
    start --state "$table" --slots 8
    established "$what: before" 127.0.0.2 18501 a.example 3600
    kept=$number
    spoil
    # what changes nothing is answered, and nothing is said yet
    is "$what: a refresh of no entry" "$(llq 127.0.0.4 18541 x.example 2 77 60)" '4 77 0'
    found "$what: a repeated setup" 127.0.0.2 18501 a.example 3600
    is "$what: nothing is said yet" "$(lines '.*not saved.*')" 0
    # what changes the table is not; the entry that was saved is still told of
    patience=30
    llq 127.0.0.3 18511 b.example 1 0 3600 >"$work/setup" &
    jobs=$!
    logged "$what: the line" "llqd: $table: not saved: $reason; trying again every second"
    patience=3
    answered "$what: a response of a saved entry" 127.0.0.2 18501 a.example 3600 $told
    is "$what: a refresh of no entry, again" "$(llq 127.0.0.4 18541 x.example 2 77 60)" '4 77 0'
    patience=30
    llq 127.0.0.2 18501 a.example 2 $kept 7200 >"$work/refresh" &
    jobs="$jobs $!"
    llq 127.0.0.4 18542 c.example 1 0 3600 >"$work/other" &
    jobs="$jobs $!"
    patience=3
    sleep $3
    five() { kill -USR1 $host; sleep 0.1; grep -q '^  replies    held 5,' "$log"; } # two before, and these three
    await 8 five || fail "$what: the three changes did not come"
    is "$what: others are answered on" "$(llq 127.0.0.4 18541 x.example 2 77 60)" '4 77 0'
    is "$what: what was held back is still held" "$(cat "$work/setup" "$work/refresh" "$work/other")" ''
    is "$what: it is said once" "$(lines '.*not saved.*')" 1
    mend
    logged "$what: over" "llqd: $table: saved again; 3 replies held back are sent, 0 were dropped"
    wait $jobs
    like "$what: the setup's reply" "$(cat "$work/setup")" '0 [1-9][0-9]* 3600'
    is "$what: the refresh's reply" "$(cat "$work/refresh")" "0 $kept 7200"
    like "$what: the other setup's reply" "$(cat "$work/other")" '0 [1-9][0-9]* 3600'
    is "$what: three entries on disk" "$(entries | cut -d ' ' -f 1,2,5)" \
        $'127.0.0.2 18501 2:00:00\n127.0.0.3 18511 1:00:00\n127.0.0.4 18542 1:00:00'
    granted "$what: saved on" 127.0.0.4 18543 d.example 3600
    is "$what: four entries on disk" "$(used)" 4
}

# restart WHAT: killed and started again with saves failing: nothing is written, the entries are there, a change is held back
restart() {
    local what=$1 file=$(stat -c '%i %y' "$table") before=$(entries)
    end 9
    start --state "$table"
    logged "$what, restart: taken up" "llqd: 8 slots, 4 entries taken up from $table"
    sleep 1.5
    found "$what, restart: a saved entry" 127.0.0.4 18543 d.example 3600
    is "$what, restart: nothing was written or said" "$(stat -c '%i %y' "$table") $(lines '.*not saved.*')" "$file 0"
    end TERM
    is "$what, restart: stopped" "$code $(tail -n 1 "$log")" '0 llqd: stopped'
    start --state "$table"
    patience=1
    is "$what, restart: a setup is not answered" "$(llq 127.0.0.5 18551 e.example 1 0 3600)" ''
    patience=3
    logged "$what, restart: the line" "llqd: $table: not saved: .*; trying again every second"
    end TERM
    is "$what, restart: stopped with a change" "$code $(tail -n 1 "$log")" '1 llqd: stopped with changes that are not saved'
    is "$what, restart: the file is as it was" "$(stat -c '%i %y' "$table") $(entries)" "$file $before"
}

# ---- no space: a small disk that is filled
mkdir "$work/disk"
if mount -t tmpfs -o size=16k,mode=755 small "$work/disk" 2>/dev/null; then
    mounted+=("$work/disk")
    table=$work/disk/table
    spoil() { head -c 1M /dev/zero >"$work/disk/filler" 2>/dev/null; [ "$(stat -f -c %a "$work/disk")" = 0 ] || fail 'the disk is not full'; }
    mend() { rm "$work/disk/filler"; }
    scene 'no space' 'No space left on device' 2.5
    spoil
    restart 'no space'
    refused 'no space, no file yet' "$work/disk/fresh: No space left on device" --port $port --state "$work/disk/fresh"
    mend
    start --state "$work/disk/fresh" --slots 4
    logged 'room again, no file yet' "llqd: 4 slots, 0 entries taken up: $work/disk/fresh is new"
    end TERM
    rm "$table"

    # ---- the same disk, read-only
    # a file that the host has open for writing can keep the disk from it: then a read-only view is put over it
    spoil() {
        mount -o remount,ro "$work/disk" 2>/dev/null && return
        mount --bind "$work/disk" "$work/disk" && mounted+=("$work/disk") && mount -o remount,bind,ro "$work/disk"
    }
    mend() { mount -o remount,rw "$work/disk" 2>/dev/null || mount -o remount,bind,rw "$work/disk"; }
    scene 'a read-only disk' 'Read-only file system' 0.2
    spoil
    restart 'a read-only disk'
    mend
else
    left_out 'a full disk and a read-only one: no tmpfs can be mounted (a file size limit and a read-only folder stand for them)'
fi

# ---- a read-only folder. Root writes there by its capabilities: the host goes without them.
mkdir "$work/folder"
table=$work/folder/table
[ "$(id -u)" != 0 ] || under=(setpriv --bounding-set=-all --inh-caps=-all --ambient-caps=-all)
if ${under[@]+"${under[@]}"} true 2>/dev/null; then
    spoil() { chmod 555 "$work/folder"; }
    mend() { chmod 755 "$work/folder"; }
    scene 'a read-only folder' 'Permission denied' 0.2
    end TERM
    is 'a read-only folder: stopped' "$code $(tail -n 1 "$log")" '0 llqd: stopped'
    rm "$table"
else
    left_out 'a read-only folder: root cannot go without its capabilities here'
fi
under=()

# ---- a removed folder, which is made again
spoil() { rm -r "$work/folder"; }
mend() { mkdir "$work/folder"; }
scene 'a removed folder' 'No such file or directory' 0.2
end TERM
rm -r "$work/folder"

# ---- a file size limit, which SIGXFSZ tells of
table=$work/table
if command -v prlimit >/dev/null; then
    spoil() { prlimit --pid $host --fsize=2500:unlimited; }
    mend() { prlimit --pid $host --fsize=unlimited:unlimited; }
    scene 'a file size limit' 'File too large' 0.2
    under=(prlimit --fsize=2500)
    if [ ${#mounted[@]} = 0 ]; then restart 'a file size limit'; else end TERM; fi
    refused 'a file size limit, no file yet' "$work/fresh: File too large" --port $port --slots 8 --state "$work/fresh"
    is 'nothing is left of it' "$(ls "$work"/fresh* 2>/dev/null)" ''
    under=()

    # ---- at most 64 replies are held while saves fail, 48 of them for unlisted addresses; a repeated setup tells of an entry that
    # is not saved, so its reply is held too
    rm "$table"
    spoil() { prlimit --pid $host --fsize=2500:unlimited; }
    if grep -q ' lo$' /proc/net/if_inet6 2>/dev/null; then
        printf '::1 1 4\n' >"$work/roster"
        start --state "$table" --slots 8 --roster "$work/roster" --address 127.0.0.1 --address ::1
        message "$work/message" a.example "$(option 1 0 3600)"
        size=$(stat -c %s "$work/message")
        exec 7<>/dev/udp/127.0.0.1/$port 8<>/dev/udp/::1/$port
        spoil
        cat "$work/message" >&7
        logged 'held: the line' "llqd: $table: not saved: File too large; trying again every second"
        for i in $(seq 59); do cat "$work/message" >&7; done
        sleep 0.2
        for i in $(seq 20); do cat "$work/message" >&8; done
        kill -USR1 $host
        logged 'held: counted' '  replies    held 64, dropped 16, not sent 0'
        mend
        logged 'held: over' "llqd: $table: saved again; 64 replies held back are sent, 16 were dropped"
        is 'held: 48 replies for the unlisted address' "$(timeout 5 dd bs=2000 count=48 <&7 2>/dev/null | wc -c)" $((48 * size))
        is 'held: 16 replies for the listed address' "$(timeout 5 dd bs=2000 count=16 <&8 2>/dev/null | wc -c)" $((16 * size))
        exec 7<&- 8<&-
        end TERM

        # ---- what is held when saves begin to fail: the listed address keeps its places, however many came before it
        if bash "$(dirname "$0")/tools.sh" 2>/dev/null; then
            under=(env LD_PRELOAD="$(realpath "$(dirname "$0")/../../target/host/test/slowsync.so")" SLOWSYNC_MS=1500)
            start --state "$table" --address 127.0.0.1 --address ::1
            exec 7<>/dev/udp/127.0.0.1/$port 8<>/dev/udp/::1/$port
            cat "$work/message" >&7
            sleep 0.2
            message "$work/next" b.example "$(option 1 0 3600)" # it waits for the next save, which fails
            for i in $(seq 99); do cat "$work/next" >&7; done
            sleep 0.2
            cat "$work/message" >&8
            sleep 0.1
            spoil
            logged 'places kept: the line' "llqd: $table: not saved: File too large; trying again every second"
            kill -USR1 $host
            logged 'places kept: counted' '  replies    held 101, dropped 51, not sent 0'
            mend
            logged 'places kept: over' "llqd: $table: saved again; 49 replies held back are sent, 51 were dropped" 20
            is 'places kept: the listed address has its reply' "$(timeout 5 dd bs=2000 count=1 <&8 2>/dev/null | wc -c)" $size
            exec 7<&- 8<&-
            end TERM
            under=()
        else
            left_out 'places kept for listed addresses: the shim cannot be built'
        fi
    else
        left_out 'how many replies are held: this machine has no ::1'
    fi
else
    left_out 'a file size limit: prlimit (util-linux) is not there'
fi

passed
