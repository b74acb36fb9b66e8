#!/bin/bash
# Makes filesystems by mkfs.btrfs and the kernel, and holds the program's `check`, `restore` and `scrub` to them:
#
#     tests/sets.sh PROGRAM [FOLDER]
#
# Each is filled through a mount on loop devices, unmounted, and checked by `btrfs check`; then `check --check-data-csum` has to say `no findings`, and
# `restore -s` to write the same directories and files as a mount shows, but for what it names as left out. Some are cut instead: their images are copied,
# CUTS times, while the kernel writes, balances, converts, or removes subvolumes or devices, as a power cut would leave them. There `check` may also say what
# is under way, and while a log is pending each command has to refuse, before the kernel replays it.
#
# Then the first image is damaged. Where each block has another copy or parity it is zeroed behind its superblocks: `scrub start` has to leave nothing bad,
# and `check` and `restore` to say and write the same again, but for files without checksums, of which no copy can be told to be the right one. Of all
# others PAGES (60) pages are spoiled: `scrub start` may only put back what was there, a second one has nothing to repair, `check` may only name lost
# blocks, and `restore -i -s` may write no file with other bytes, but for those without checksums.
#
# ONLY="NAME.." makes these sets alone, SIZE=600M is how large an image is, COUNT=100000 how many files one folder has, and KEEP=1 keeps them. Times and
# the most memory of the three commands are told. It needs root, loop devices, a kernel with btrfs, btrfs-progs, attr, time and Python.
# The gate doesn't run it.
set -u
program=$(readlink -f "${1:?tests/sets.sh PROGRAM [FOLDER]}")
pages=$(dirname "$(readlink -f "$0")")/pages.py
export LC_ALL=C.UTF-8
room=${2:-$(mktemp -d)}
mkdir -p "$room"
# shellcheck source=tests/loops.sh
. "$(dirname "$(readlink -f "$0")")/loops.sh"

# Files of many shapes, below a folder.
fill() {
    mkdir -p "$1/many" "$1/deep/a/b/c/d/e"
    for i in $(seq 1 400); do head -c $((i * 37 % 9000)) /dev/urandom >"$1/many/file$i"; done
    head -c 3000000 /dev/urandom >"$1/random"
    yes 'the same line again and again' | head -c 2000000 >"$1/lines"
    dd if=/dev/urandom of="$1/holes" bs=4096 count=3 seek=100 status=none
    dd if=/dev/urandom of="$1/holes" bs=4096 count=3 seek=300 conv=notrunc status=none
    fallocate -l 1M "$1/preallocated" && head -c 5000 /dev/urandom | dd of="$1/preallocated" conv=notrunc status=none
    : >"$1/empty"
    echo inline >"$1/deep/a/b/c/d/e/inline"
    ln "$1/random" "$1/deep/hard"
    for i in $(seq 1 300); do ln "$1/many/file20" "$1/deep/link-with-a-rather-long-name-of-its-own-$i"; done
    ln -s ../random "$1/deep/symbolic"
    mkfifo "$1/deep/fifo"
    touch "$1/$(printf 'n%.0s' $(seq 1 255))" "$1/Grüße"
    setfattr -n user.one -v value "$1/random"
    setfattr -n user.long -v "$(head -c 3000 /dev/zero | tr '\0' v)" "$1/lines"
    touch "$1/plain" && chattr +C "$1/plain" 2>/dev/null && head -c 200000 /dev/urandom >"$1/plain"
    rm -f "$1"/many/file1*
    sync "$1"
}

snapshots() {
    btrfs -q subvolume create "$1/sub"
    fill "$1/sub"
    btrfs -q subvolume snapshot "$1/sub" "$1/first"
    rm -rf "$1/first/many/file2"*
    echo more >>"$1/first/lines"
    btrfs -q subvolume snapshot -r "$1/first" "$1/second"
    btrfs -q subvolume snapshot "$1/second" "$1/sub/third"
    head -c 100000 /dev/urandom >"$1/sub/third/random"
    btrfs -q subvolume snapshot "$1/sub" "$1/gone" && btrfs -q subvolume delete -c "$1/gone" && btrfs subvolume sync "$1" >/dev/null
}

reflinks() {
    fill "$1"
    for i in $(seq 1 40); do cp --reflink=always "$1/random" "$1/deep/clone$i"; done
    for i in $(seq 1 40); do dd if=/dev/urandom of="$1/deep/clone$i" bs=4096 count=2 seek=$((i * 7)) conv=notrunc status=none; done
    rm -f "$1/random" "$1/deep/hard" "$1"/deep/clone1*
}

quotas() {
    btrfs quota enable "$1"
    snapshots "$1"
    btrfs -q qgroup create 1/7 "$1"
    btrfs quota rescan -w "$1" >/dev/null
}

balanced() {
    fill "$1"
    btrfs -q balance start --full-balance "$1" >/dev/null
    rm -rf "$1/many"
    fill "$1/again"
}

converted() {
    fill "$1"
    btrfs -q balance start -f -dconvert=raid1 -mconvert=raid1 "$1" >/dev/null
    btrfs -q balance start -f -dconvert=raid5 -mconvert=raid6 "$1" >/dev/null
    fill "$1/again"
}

# A folder of many files, and one file with many names, most of which stand in items of their own.
crowded() {
    mkdir "$1/files" "$1/links"
    python3 - "$1" "${COUNT:-100000}" <<'END'
import os, sys
top, count = sys.argv[1], int(sys.argv[2])
for n in range(count):
    with open(f"{top}/files/file {n}", "wb") as it:
        it.write(b"%d" % n if n % 3 else b"")
open(f"{top}/links/0", "wb").write(b"linked")
for n in range(1, count * 6 // 10):
    os.link(f"{top}/links/0", f"{top}/links/{n}")
END
}

# 500 snapshots of few bytes each, since each comes out whole.
many_snapshots() {
    btrfs -q subvolume create "$1/sub"
    for i in $(seq 1 40); do head -c $((i * 97)) /dev/urandom >"$1/sub/file$i"; done
    for i in $(seq 1 500); do
        echo "$i" >"$1/sub/file$((i % 40))"
        btrfs -q subvolume snapshot -r "$1/sub" "$1/snapshot$i"
    done
}

# 600 directories in one another; a path of more than 4096 bytes; and names that are odd.
deep() {
    (cd "$1" && for i in $(seq 1 600); do echo "$i" >file && mkdir d && cd d || exit; done)
    local name
    name=$(printf 'n%.0s' $(seq 1 250))
    (cd "$1" && for i in $(seq 1 20); do mkdir "$name" && cd "$name" && echo "$i" >file || exit; done)
    mkdir "$1/odd"
    for name in ' ' $'\\' $'\n' $'\t' $'\xff\xfe' '*' '...' '-rf' "'" '"' '%s' $'\x01' $'\xe2\x80\xae'; do echo "$name" >"$1/odd/$name"; done
}

# One extent in 6200 places of a file.
deduped() {
    python3 - "$1" <<'END'
import fcntl, os, struct, sys
with open(f"{sys.argv[1]}/source", "w+b") as source, open(f"{sys.argv[1]}/places", "w+b") as places:
    source.write(os.urandom(16384))
    source.flush()
    os.fsync(source.fileno())
    for n in range(6200):
        fcntl.ioctl(places.fileno(), 0x4020940D, struct.pack("=qQQQ", source.fileno(), 0, 4096, 4096 * n))
END
}

# Files until there is no room for another.
full() {
    fill "$1"
    python3 - "$1" <<'END'
import itertools, os, sys
for size in 100000, 1000:
    try:
        for n in itertools.count():
            with open(f"{sys.argv[1]}/{size} {n}", "wb", buffering=0) as it:
                it.write(os.urandom(size))
    except OSError:
        pass
END
    rm -f "$1/many/file3"*
    sync "$1"
}

# Through seven profiles.
through() {
    fill "$1"
    for profile in raid0 raid1 raid10 raid5 raid6 raid1c3 raid1c4; do
        btrfs -q balance start -f -dconvert="$profile" -mconvert="${profile/raid0/raid1}" "$1" >/dev/null
        echo "$profile" >"$1/$profile"
    done
}

# A device is taken out, one is given again, and one is made smaller.
moved() {
    local device
    fill "$1"
    device=$(btrfs filesystem show "$1" | sed -n 's/.*devid *2 .*path //p')
    btrfs -q device remove 2 "$1"
    fill "$1/between"
    btrfs -q device add -f "$device" "$1"
    btrfs -q balance start -f -d -m "$1" >/dev/null
    btrfs -q filesystem resize 1:-100M "$1" >/dev/null
    fill "$1/again"
}

# Files and data, so many that what the kernel does with them takes its time.
heavy() {
    fill "$1"
    COUNT=$((${COUNT:-100000} / 5)) crowded "$1"
    for i in $(seq 1 60); do head -c 2000000 /dev/urandom >"$1/heavy$i"; done
    sync "$1"
}

# A balance that is paused as the filesystem is unmounted.
paused() {
    heavy "$1"
    btrfs -q balance start --background --full-balance "$1"
    sleep 0.5
    btrfs balance pause "$1"
    holds 'paused' "$(btrfs balance status "$1" | grep -c 'is paused')" 1
}

# Subvolumes with files of their own.
forest() {
    btrfs -q subvolume create "$1/sub"
    COUNT=$((${COUNT:-100000} / 5)) crowded "$1/sub"
    sync "$1"
}

# What goes on until it is stopped. Writes, renames and removals:
writing() {
    local i=0
    while :; do
        i=$((i + 1))
        head -c $((i * 1237 % 300000)) /dev/urandom >"$1/new$((i % 50))"
        mv "$1/new$((i * 7 % 50))" "$1/moved$((i % 30))" 2>/dev/null
        ln "$1/new$((i % 50))" "$1/deep/linked$i"
        rm -f "$1/moved$((i * 3 % 30))" "$1/deep/linked$((i - 20))"
    done
}

# .. each of which is synced by itself, so that a log is written:
logging() {
    local i=0
    while :; do
        i=$((i + 1))
        head -c $((i * 1237 % 30000)) /dev/urandom >"$1/new$((i % 50))"
        sync "$1/new$((i % 50))"
        mv "$1/new$((i % 50))" "$1/moved$((i % 30))" && sync "$1/moved$((i % 30))"
    done
}

balancing() {
    while :; do btrfs -q balance start --full-balance "$1"; done
}

converting() {
    while :; do
        for profile in raid5 raid1c3 raid10 raid6 raid1; do btrfs -q balance start -f -dconvert="$profile" -mconvert="$profile" "$1"; done
    done
}

deleting() {
    local i=0
    while :; do
        i=$((i + 1))
        btrfs -q subvolume snapshot "$1/sub" "$1/gone$i"
        for n in $(seq 1 50 $((${COUNT:-100000} / 5))); do echo "$i" >"$1/gone$i/files/file $n"; done
        sync -f "$1" && btrfs -q subvolume delete "$1/gone$i"
    done
}

removing() {
    local device
    device=$(btrfs filesystem show "$1" | sed -n 's/.*devid *2 .*path //p')
    while :; do
        btrfs -q device remove "$device" "$1"
        btrfs -q device add -f "$device" "$1"
        btrfs -q balance start -dlimit=2 -mlimit=1 "$1"
    done
}

# Whether a set is wanted. Its folder is empty then.
begins() {
    case " ${ONLY:-$1} " in *" $1 "*) ;; *) return 1 ;; esac
    rm -rf "${room:?}/$1" && mkdir -p "$room/$1/mount"
}

# The folder, how many images, the options of mkfs.btrfs and of the mount: makes empty images there, and mounts them at the folder `mount` of the second.
made() {
    local folder=$1 at=$2 count=$3 make=$4 options=$5
    images=()
    for i in $(seq 1 "$count"); do truncate -s "${SIZE:-600M}" "$folder/$i" && images+=("$folder/$i"); done
    attach "${images[@]}"
    # shellcheck disable=SC2086
    mkfs.btrfs -q -f $make "${devices[@]}" >"$at/log" 2>&1 && mount -o "$options" "${devices[0]}" "$at/mount" 2>>"$at/log"
}

# NAME, how many images, the options of mkfs.btrfs, those of the mount, and what fills it.
one() {
    local at="$room/$1" devices images
    begins "$1" || return
    if made "$at" "$at" "$2" "$3" "$4"; then
        "$5" "$at/mount" >>"$at/log" 2>&1
        umount "$at/mount"
        judge "$1" "$at" "${devices[0]}" "${images[@]}"
    else
        echo "$1: not made here"
    fi
    detach
    [ -n "${KEEP:-}" ] || rm -rf "$at"
}

# The same, and what goes on as the images are cut. They lie in a filesystem of their own, which is frozen while they are copied.
cut() {
    local at="$room/$1" devices images worker
    begins "$1" || return
    mkdir "$at/host" && truncate -s 8G "$at/around" && mkfs.btrfs -q "$at/around" >/dev/null && mount -o loop,noatime "$at/around" "$at/host"
    made "$at/host" "$at" "$2" "$3" "$4" && "$5" "$at/mount" >>"$at/log" 2>&1 && sync -f "$at/mount"
    "$6" "$at/mount" >>"$at/log" 2>&1 &
    worker=$!
    for turn in $(seq 1 "${CUTS:-4}"); do frozen "$at" "$turn"; done
    kill "$worker"
    btrfs balance cancel "$at/mount" >/dev/null 2>&1
    wait "$worker" 2>/dev/null
    until umount "$at/mount" 2>/dev/null; do sleep 0.2; done
    detach
    umount "$at/host"
    rm "$at/around"
    for turn in $(seq 1 "${CUTS:-4}"); do judge_cut "$1, cut $turn" "$at/$turn"; done
    [ -n "${KEEP:-}" ] || rm -rf "$at"
}

# Copies the images, all as they are at one moment.
frozen() {
    sleep "0.$(($2 * 37 % 9 + 1))"
    mkdir -p "$1/$2/mount"
    fsfreeze -f "$1/host"
    cp --sparse=always "$1"/host/[0-9]* "$1/$2"
    fsfreeze -u "$1/host"
}

judge_cut() {
    local name=$1 at=$2 devices
    set -- "$at"/[0-9]*
    attach "$@"
    if ! "$program" super "$1" | grep -q '^log_root 0$'; then
        refused "$name" "$at" "$@"
        mount "${devices[0]}" "$at/mount" && umount "$at/mount"
    fi
    under_way='a balance is pending|tree [0-9]* is being deleted' judge "$name" "$at" "${devices[0]}" "$@"
    detach
}

# Whether each command refuses images with a log, and leaves their bytes.
refused() {
    local name=$1 at=$2 before
    shift 2
    before=$(cat "$@" | sha256sum)
    for words in "restore $at/restored" "restore -i $at/restored" 'restore -l' check 'scrub start' 'inspect-internal dump-tree' "send $at stream"; do
        # shellcheck disable=SC2086
        holds "$name: $words" "$("$program" $words "$@" 2>&1; echo $?)" $'error: a log tree is pending\n3'
    done
    holds "$name: left alone" "$(cat "$@" | sha256sum)" "$before"
    echo "$name: a log is pending"
}

judge() {
    local name=$1 at=$2 device=$3
    shift 3
    btrfs check --check-data-csum "$device" >>"$at/log" 2>&1 || { echo "$name: btrfs check finds something"; tail -3 "$at/log"; }
    mount -o ro,subvolid=5 "$device" "$at/mount"
    same "$name" "$at" "$@"
    listed "$at/mount" | sort -u >"$at/shown"
    case $name in
    raid1 | raid1c3 | raid1c4 | raid10 | raid5 | raid6 | converted | through | moved) zeroed "$name" "$at" "$@" ;;
    *) spoiled "$name" "$at" "$@" ;;
    esac
    echo "$name: $(tail -1 "$at/said"), $(head -1 "$at/found"); check $(cat "$at/checked"), restore $(cat "$at/measured"), scrub $(cat "$at/scrubbed")"
}

# Zeroes the first image, scrubs it, and asks again.
zeroed() {
    local name=$1 at=$2
    shift 2
    cp -a "$at/mount" "$at/files" && umount "$at/mount"
    fallocate -p -o 1M -l 63M "$1"
    fallocate -p -o 65M -l $(($(stat -c %s "$1") - 65 * 1048576)) "$1"
    holds "$name: scrub" "$(measured "$at/scrubbed" scrub start "$@" | sed -n 's/.* lost \([0-9]*\) .*/\1/p')" 0
    holds "$name: scrub once more" "$("$program" scrub start -r "$@" | sed -n 's/.* bad \([0-9]*\) .* parity \([0-9]*\) .*/\1 \2/p')" '0 0'
    rmdir "$at/mount" && mv "$at/files" "$at/mount" && rm -rf "$at/restored"
    find "$at/mount" -name plain -delete
    same "$name, mended" "$at" "$@"
}

# Spoils pages of the first image, and looks that nothing is made worse.
spoiled() {
    local name=$1 at=$2 lost
    shift 2
    umount "$at/mount"
    cp --sparse=always "$1" "$at/kept"
    "$pages" spoil "$1" "${PAGES:-60}" 1 >"$at/pages"
    measured "$at/scrubbed" scrub start "$@" >"$at/first"
    lost=$(sed -n 's/.* lost \([0-9]*\) parity.*/repaired 0 lost \1 parity 0/p' "$at/first")
    "$program" scrub start "$@" | grep -o 'repaired.*parity [0-9]*\|error: lost block.*' >"$at/second"
    holds "$name: second scrub of $(cat "$at/first")" "$(cat "$at/second")" "${lost:-$(cat "$at/first")}"
    holds "$name: other bytes" "$("$pages" compare "$at/kept" "$1" "$at/pages" | sed 's/.*other //')" 0
    "$program" check "$@" | head -1 | grep -vE "^(no findings|lost [0-9]+|error: (lost block .*|${under_way:-}))\$" >"$at/wrong"
    holds "$name: check of what was spoiled" "$(cat "$at/wrong")" ''
    rm -rf "$at/restored" "$at/kept" && mkdir "$at/restored"
    "$program" restore -i -s "$at/restored" "$@" >"$at/said.i"
    case $name in no-sums) return ;; esac
    holds "$name: other files" "$(listed "$at/restored" | sort -u | comm -13 "$at/shown" - | grep -v ' \./plain$' | head -3)" ''
}

# Whether `check` finds nothing, and `restore` writes what stands below the folder mount.
same() {
    local name=$1 at=$2
    shift 2
    measured "$at/checked" check --check-data-csum "$@" | head -3 >"$at/found"
    holds "$name: check" "$(sed -E "s/^error: (${under_way:-})\$/no findings/" "$at/found")" 'no findings'
    mkdir "$at/restored"
    measured "$at/measured" restore -s "$at/restored" "$@" >"$at/said"
    (cd "$at/mount" && left_out "$at/said" "$at/restored")
    case $name in *mended) find "$at/restored" -name plain -delete ;; esac
    holds "$name: restore" "$(diff <(listed "$at/mount") <(listed "$at/restored") | head -3)" ''
}

# What stands below a folder, also where paths are too long for a call: the paths, and the sums and names of files.
listed() {
    (cd "$1" && find . ! -name fifo -printf '%y %P %l\0' | sort -z | tr '\n\0' '?\n' && find . -type f -execdir sha256sum -z '{}' + | sort -z | tr '\n\0' '?\n')
}

# Calls the program, and keeps how long it took and how much memory it had.
measured() {
    local into=$1
    shift
    /usr/bin/time -q -o "$into" -f '%e s, %M kB' "$program" "$@"
}

# Makes beside what was restored what it named as left out, so that the two can be compared.
left_out() {
    sed -n 's/^skip [a-z ]* \(\/.*\)$/\1/p' "$1" | while IFS= read -r path; do
        path=$(printf '%b' "${path//\\x/\\x}")
        mkdir -p "$2$(dirname "$path")" && cp -a ".$path" "$2$path" 2>/dev/null
    done
}

one snapshots 1 '' defaults snapshots
one reflinks 1 '' defaults reflinks
one quotas 1 '' defaults quotas
one balanced 1 '' defaults balanced
one block-group-tree 1 '-O block-group-tree' defaults snapshots
one cache-v1 1 '-R ^free-space-tree' space_cache=v1 reflinks
one no-space-cache 1 '-R ^free-space-tree' nospace_cache fill
one mixed 1 '-M' defaults reflinks
one nodes-of-64k 1 '-n 65536' defaults snapshots
one nodes-of-4k 1 '-n 4096' defaults snapshots
one no-holes-off 1 '-O ^no-holes' defaults fill
one no-skinny-metadata 1 '-O ^skinny-metadata' defaults fill
one xxhash 1 '--csum xxhash' defaults reflinks
one sha256 1 '--csum sha256' defaults reflinks
one no-sums 1 '' nodatasum fill
one zlib 1 '' compress-force=zlib snapshots
one lzo 1 '' compress-force=lzo reflinks
one zstd 1 '' compress-force=zstd reflinks
for profile in single dup; do one "$profile" 1 "-d $profile -m $profile" defaults fill; done
for profile in raid0 raid1 raid1c3 raid1c4 raid10 raid5 raid6; do one "$profile" 4 "-d $profile -m $profile" defaults reflinks; done
one converted 4 '' defaults converted
one crowded 1 '' defaults crowded
one many-snapshots 1 '' defaults many_snapshots
one deep 1 '' defaults deep
one deduped 1 '' defaults deduped
SIZE=${SIZE:-300M} one full 1 '' defaults full
SIZE=${SIZE:-300M} one mixed-full 1 -M defaults full
SIZE=${SIZE:-1200M} one through 4 '' defaults through
one moved 3 '-d raid1 -m raid1' defaults moved
SIZE=${SIZE:-1T} one sparse 1 '' defaults fill
one paused 1 '' defaults paused
cut writing 1 '' commit=1 fill writing
cut logging 1 '' defaults fill logging
cut balancing 1 '' defaults heavy balancing
cut converting 4 '-d raid1 -m raid1' defaults heavy converting
cut deleting 1 '' commit=1 forest deleting
cut removing 3 '-d raid1 -m raid1' defaults heavy removing
echo "$passed passed, $failed failed"
[ "$failed" = 0 ]
