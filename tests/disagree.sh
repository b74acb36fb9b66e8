#!/bin/bash
# Makes filesystems whose images disagree, by mkfs.btrfs and the kernel, and holds the program to them:
#
#     tests/disagree.sh PROGRAM [FOLDER]
#
# Diverged: two parts of a mirrored filesystem are each mounted alone and written. Every command but `super` has to refuse images of both, and each part
# alone has to be restored as its mount showed. Behind: one device is missing while files with and without checksums are written over in place, and comes
# back. `restore` has to write the newest bytes, by all images and by each other set of images that is enough. With SCRUB=1, `scrub start` over all images
# has to leave what `restore` wrote before it as it was, also by each such set, and `btrfs check` finds nothing; an older image alone has to give the newest
# bytes of files without checksums.
#
# ONLY="NAME.." makes these sets alone, and KEEP=1 keeps them. It needs root, loop devices, a kernel with btrfs, and btrfs-progs. The gate doesn't run it.
set -u
program=$(readlink -f "${1:?tests/disagree.sh PROGRAM [FOLDER]}")
room=${2:-$(mktemp -d)}
mkdir -p "$room"
# shellcheck source=tests/loops.sh
. "$(dirname "$(readlink -f "$0")")/loops.sh"

# Mounts some images by these options, has a function write there, and keeps what another mount shows then.
written() {
    local at=$1 options=$2 writes=$3
    shift 3
    attach "$@"
    mount -o "$options" "${devices[0]}" "$at/mount" && "$writes" "$at/mount"
    umount "$at/mount"
    mount -o "ro,$options" "${devices[0]}" "$at/mount"
    rm -rf "$at/shown" && cp -a "$at/mount" "$at/shown"
    umount "$at/mount"
    detach
}

# Files with checksums, and files without, each larger than an element.
first() {
    mkdir "$1/plain" "$1/summed"
    chattr +C "$1/plain"
    for i in $(seq 1 12); do
        head -c $((i * 40000)) /dev/urandom >"$1/plain/$i"
        head -c $((i * 40000)) /dev/urandom >"$1/summed/$i"
    done
}

# Half of those without are written over in place, by different pieces in different rows.
over_plain() {
    for i in $(seq 2 2 12); do dd if=/dev/urandom of="$1/plain/$i" bs=4096 count=4 seek=$((i * 2)) conv=notrunc status=none; done
}

# .. and half of those with checksums, which are written anew.
over() {
    over_plain "$1"
    for i in $(seq 2 2 12); do dd if=/dev/urandom of="$1/summed/$i" bs=4096 count=4 seek=$((i * 2)) conv=notrunc status=none; done
}

# How many files, of those below a folder if one is named, a restore by some images gave otherwise than they were shown.
below=.
differing() {
    local at=$1
    shift
    rm -rf "$at/restored" && mkdir "$at/restored"
    "$program" restore "$at/restored" "$@" >"$at/said"
    (cd "$at/shown" && find "$below" -type f | while IFS= read -r file; do cmp -s "$file" "$at/restored/$file" || echo "$file"; done) | wc -l
}

one() {
    case " ${ONLY:-$1} " in *" $1 "*) ;; *) return ;; esac
    local name=$1 count=$2 profile=$3
    at="$room/$name"
    rm -rf "$at" && mkdir -p "$at/mount"
    images=()
    for i in $(seq 1 "$count"); do truncate -s "${SIZE:-300M}" "$at/$i" && images+=("$at/$i"); done
    mkfs.btrfs -q -f -d "$profile" -m "$profile" "${images[@]}" >"$at/log" 2>&1 || { echo "$name: not made here" && return; }
    written "$at" defaults first "${images[@]}"
    "$4" "$name"
    [ -n "${KEEP:-}" ] || rm -rf "$at"
}

# All images but the last are mounted and written, and all but the first of a copy: the last one of these is then given beside the others.
diverged() {
    local name=$1 last=$((${#images[@]} - 1)) copies=() given said
    for image in "${images[@]}"; do cp --sparse=always "$image" "$image.copy" && copies+=("$image.copy"); done
    written "$at" degraded over "${images[@]:0:last}" && mv "$at/shown" "$at/one"
    written "$at" degraded over "${copies[@]:1}" && mv "$at/shown" "$at/other"
    given=("${images[@]:0:last}" "${copies[last]}")
    for command in check 'scrub start -r' 'scrub start' "restore $at/none" 'restore -l' 'inspect-internal dump-tree'; do
        # shellcheck disable=SC2086
        said=$("$program" $command "${given[@]}")
        holds "$name: $command, status" "$?" 3
        holds "$name: $command" "$said" "error: image $last has diverged"
    done
    "$program" super "${given[@]}" >/dev/null
    holds "$name: super" "$?" 0
    mv "$at/one" "$at/shown" && holds "$name: the first images" "$(differing "$at" "${images[@]:0:last}")" 0 && rm -rf "$at/shown"
    mv "$at/other" "$at/shown" && holds "$name: the others" "$(differing "$at" "${copies[@]:1}")" 0
}

# How many files a restore without one of the images gave otherwise, where another one is older. Of two images the older one alone shows its own
# last commit, in which only what was written over in place is new.
differing_without() {
    below=. && [ "${#images[@]}" = 2 ] && [ "$1" != "$2" ] && below=plain
    differing "$at" "${images[@]:0:$1}" "${images[@]:$1+1}"
    below=.
}

# How many sectors `btrfs check` finds wrong in some copy, and its status.
unclean() {
    attach "$@"
    btrfs check --check-data-csum "${devices[0]}" >"$at/checked" 2>&1
    echo "$? $(grep -c '^mirror' "$at/checked")"
    detach
}

# One device is missing for a while; each of them in turn. (With parity, Linux 6.18 can fail to write a file anew meanwhile.)
behind() {
    local name=$1 writes=over
    case $name in *raid5 | *raid6) writes=over_plain ;; esac
    # (Linux 6.18 leaves some parity that isn't that of its data, also where nothing failed.)
    clean=$(unclean "${images[@]}")
    for missing in "${!images[@]}"; do
        for i in "${!images[@]}"; do cp --sparse=always "${images[i]}" "$at/before$i"; done
        written "$at" degraded "$writes" "${images[@]:0:missing}" "${images[@]:missing+1}"
        holds "$name: restore by all images, $missing older" "$(differing "$at" "${images[@]}")" 0
        holds "$name: restore without image $missing" "$(differing "$at" "${images[@]:0:missing}" "${images[@]:missing+1}")" 0
        if [ -n "${SCRUB:-}" ]; then
            left=()
            for i in "${!images[@]}"; do left+=("$(differing_without "$i" "$missing")"); done
            "$program" scrub start "${images[@]}" >"$at/scrubbed"
            holds "$name: restore after scrub, $missing older" "$(differing "$at" "${images[@]}")" 0
            for i in "${!images[@]}"; do
                # On an older image on which all blocks pass no sector is written, since nothing says that it missed any.
                now=$(differing_without "$i" "$missing")
                wanted=0 && grep -q ' bad 0 ' "$at/scrubbed" && [ "$now" -le "${left[i]}" ] && wanted=$now
                holds "$name: restore after scrub without image $i, $missing older" "$now" "$wanted"
            done
            holds "$name: btrfs check after scrub, $missing older" "$(unclean "${images[@]}")" "$clean"
        fi
        for i in "${!images[@]}"; do mv "$at/before$i" "${images[i]}"; done
    done
}

one diverged-raid1 2 raid1 diverged
one diverged-raid10 4 raid10 diverged
one behind-raid1 2 raid1 behind
one behind-raid1c3 3 raid1c3 behind
one behind-raid10 4 raid10 behind
one behind-raid5 3 raid5 behind
one behind-raid6 4 raid6 behind
echo "$passed passed, $failed failed"
[ "$failed" = 0 ]
