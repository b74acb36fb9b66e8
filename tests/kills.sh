#!/bin/bash
# Kills a scrub as it writes, over damaged images of filesystems that mkfs.btrfs and the kernel made:
#
#     tests/kills.sh PROGRAM [FOLDER]
#
# For each profile a filesystem of 300 MB of files is written, and sectors of one copy are spoiled (of one device in RAID5 and RAID6). One scrub runs to its
# end, and its writes are counted. Then, twenty times, a scrub of the same images is killed (SIGKILL, by strace) at some write, each time at another: a
# moment in time rarely meets one, since most of a scrub reads. A `restore` of what it left has to write every file as it was, and a second scrub has to
# leave the images that the one without a kill left, byte for byte.
#
# ONLY="NAME.." takes these profiles alone, TIMES=N kills N times, SIZE=M writes M MB, and KEEP=1 keeps the images. It needs root, loop devices, a kernel with
# btrfs, btrfs-progs, strace and some 4 GB. The gate doesn't run it.
set -u
program=$(readlink -f "${1:?tests/kills.sh PROGRAM [FOLDER]}")
room=${2:-$(mktemp -d)}
mkdir -p "$room"
# shellcheck source=tests/loops.sh
. "$(dirname "$(readlink -f "$0")")/loops.sh"

# Makes the filesystem of a profile, with files of different sizes, and keeps a copy of the files.
make() {
    local count=$1 profile=$2
    images=()
    for i in $(seq 1 "$count"); do truncate -s "${DEVICE:-800M}" "$at/$i" && images+=("$at/$i"); done
    mkfs.btrfs -q -f -d "$profile" -m "$profile" "${images[@]}" >"$at/log" 2>&1 || return 1
    attach "${images[@]}"
    mount "${devices[0]}" "$at/mount"
    for i in $(seq 1 "${SIZE:-300}"); do head -c $((1000000 + i * 137)) /dev/urandom >"$at/mount/$i"; done
    cp -a "$at/mount" "$at/files"
    umount "$at/mount"
    detach
}

# Spoils every hundredth sector that isn't empty, from a byte on, so many bytes, but for each second 64 MiB.
spoil() {
    python3 - "$@" <<'P'
import random, sys
path, start, length = sys.argv[1], int(sys.argv[2]), int(sys.argv[3])
random.seed(start)
with open(path, "r+b") as image:
    for at in range(start, start + length, 100 * 4096):
        image.seek(at)
        if at // (64 << 20) % 2 == 0 and any(image.read(4096)):
            image.seek(at)
            image.write(random.randbytes(4096))
P
}

# Spoils one copy of what is on the images: what lies on the second one, or, where there is but one, the first copy of each chunk.
damage() {
    if [ "${#images[@]}" -gt 1 ]; then spoil "${images[1]}" $((16 << 20)) $(($(stat -c %s "${images[1]}") - (16 << 20))) && return; fi
    btrfs inspect-internal dump-tree -t chunk "${images[0]}" 2>/dev/null |
        awk '/CHUNK_ITEM/ { go = 0 } /length .* type DATA\|DUP/ { go = 1; len = $2 } /stripe 0 devid/ { if (go) print $NF, len }' |
        while read -r start length; do spoil "${images[0]}" "$start" "$length"; done
}

# Whether a restore of the images writes each file as it was.
whole() {
    rm -rf "$at/restored" && mkdir "$at/restored"
    "$program" restore "$at/restored" "$@" >"$at/said" 2>&1 || { echo "restore: $(tail -n 1 "$at/said")" && return; }
    diff -rq "$at/files" "$at/restored" >/dev/null && echo whole || echo "other files"
}

copy() {
    for i in "${!images[@]}"; do cp --sparse=always "$1$i" "$2$i"; done
}

# How many of the images of two sets differ.
differing() {
    local n=0
    for i in "${!images[@]}"; do cmp -s "$1$i" "$2$i" || n=$((n + 1)); done
    echo "$n"
}

one() {
    case " ${ONLY:-$1} " in *" $1 "*) ;; *) return ;; esac
    local name=$1 count=$2 profile=$3 set writes write killed=0 begun=0 between=0
    at="$room/$name"
    rm -rf "$at" && mkdir -p "$at/mount"
    make "$count" "$profile" || { echo "$name: not made here" && return; }
    damage
    for i in "${!images[@]}"; do mv "${images[i]}" "$at/bad$i"; done
    copy "$at/bad" "$at/whole"
    set=() && for i in "${!images[@]}"; do set+=("$at/whole$i"); done
    strace -f -qq -o "$at/calls" -e trace=pwrite64 "$program" scrub start "${set[@]}" >"$at/scrubbed"
    holds "$name: a scrub without a kill, status" "$?" 0
    holds "$name: behind it" "$(whole "${set[@]}")" whole
    writes=$(wc -l <"$at/calls")
    echo "$name: $(tail -n 1 "$at/scrubbed"), $writes writes"
    set=() && for i in "${!images[@]}"; do set+=("$at/cut$i"); done
    for turn in $(seq 1 "${TIMES:-20}"); do
        copy "$at/bad" "$at/cut"
        write=$((1 + (writes * turn - RANDOM % (writes + 1)) / ${TIMES:-20}))
        [ "$write" -le "$writes" ] || write=$writes
        strace -f -qq -o "$at/calls" -e trace=pwrite64 -e inject=pwrite64:signal=KILL:when="$write" \
            "$program" scrub start "${set[@]}" >/dev/null 2>&1 &
        wait "$!" 2>/dev/null
        if [ "$?" = 137 ]; then
            killed=$((killed + 1))
            if [ "$(differing "$at/bad" "$at/cut")" != 0 ]; then
                begun=$((begun + 1))
                [ "$(differing "$at/whole" "$at/cut")" = 0 ] || between=$((between + 1))
            fi
        fi
        holds "$name: killed at write $write, restore" "$(whole "${set[@]}")" whole
        "$program" scrub start "${set[@]}" >"$at/again"
        holds "$name: killed at write $write, a second scrub, status" "$?" 0
        holds "$name: killed at write $write, images that differ from those of one scrub" "$(differing "$at/whole" "$at/cut")" 0
    done
    holds "$name: how many were killed" "$killed" "${TIMES:-20}"
    echo "$name: $killed killed, $begun of them with something written, $between of these with something left to write"
    [ -n "${KEEP:-}" ] || rm -rf "$at"
}

one raid1 2 raid1
one raid5 3 raid5
one raid6 4 raid6
one raid10 4 raid10
one dup 1 dup
[ -n "${KEEP:-}" ] || [ -n "${2:-}" ] || rm -rf "$room"
echo "$passed passed, $failed failed"
[ "$failed" = 0 ]
