#!/bin/sh
# Runs the built program where standard descriptors are closed, and on images that are no files. With two folders it
# also restores into places that fail:
#
#     mkdir /tmp/raid5 /tmp/made && cd crates/btr_test_volumes && rt run -- Raid5 /tmp/raid5 && rt run -- 30 /tmp/made
#     tests/outside.sh /tmp/raid5 /tmp/made
#
# into full file systems (as root, for they are mounted), with calls of the system that fail or are interrupted (by
# strace), and into a folder that is moved away meanwhile. Ends with 0 where all is as it should be, and says what
# isn't otherwise.
set -u

top=$(dirname -- "$(dirname -- "$(readlink -f -- "$0")")")
program=$top/btrfs-offline
folder=$(mktemp -d)
trap 'rm -rf "$folder"' EXIT
image=$folder/image
cp "$top/crates/btr_tool/data/first.img" "$image" || exit 1
wrong=0

# expect WHAT STATUS: the last command ended so, and the image is as it was.
expect() {
    status=$?
    if [ "$status" != "$2" ]; then
        echo "$1: ended with $status and not with $2" >&2
        wrong=1
    fi
    if ! cmp -s "$top/crates/btr_tool/data/first.img" "$image"; then
        echo "$1: the image changed" >&2
        wrong=1
    fi
}

"$program" super "$image" >"$folder/all"
expect 'an image' 0
"$program" super "$image" <&- 2>&- >"$folder/few"
expect 'an image, with only the output open' 0
cmp -s "$folder/all" "$folder/few" || { echo 'the output differs' >&2; wrong=1; }
"$program" super "$image" >&-
expect 'an image, with the output closed' 4
"$program" super "$image" <&- >&- 2>&-
expect 'an image, with all closed' 4
# (a scrub opens its images to write, so what is put to a closed output must not come to stand in one)
binary=$top/crates/btr_tool/out/launcher/btr_tool
"$binary" scrub start "$image" >&-
expect 'a scrub, with the output closed' 4
"$binary" scrub start "$image" <&- >&- 2>&-
expect 'a scrub, with all closed' 4
"$binary" super "$image" "$(printf '\377')" >"$folder/refused"
expect "a word that isn't UTF-8" 2
[ "$(cat "$folder/refused")" = 'error: usage error at word 2' ] || { echo "a word that isn't UTF-8: $(cat "$folder/refused")" >&2; wrong=1; }

if command -v strace >/dev/null 2>&1; then
    strace -o "$folder/calls" "$binary" super "$image" <&- >&- 2>&-
    expect 'an image, traced' 4
    opened=$(grep -F "\"$image\"" "$folder/calls" | sed -n 's/^open.* = \([0-9]*\)$/\1/p')
    if [ "${opened:-0}" -le 2 ]; then
        echo "the image has descriptor ${opened:-none}" >&2
        wrong=1
    fi
fi

mkfifo "$folder/pipe"
for other in "$folder/pipe" "$folder" /dev/null /dev/zero /dev/tty /dev/ptmx; do
    timeout 10 "$program" super "$other" >"$folder/refused"
    expect "$other" 4
done
[ $# = 2 ] || exit "$wrong"
set5=$1
made=$2

complain() {
    echo "$1" >&2
    wrong=1
}

# keeps WHAT STATUS WHOLE OUT: a restore ended so. Where it says that all is there, or up to a lost block, all of that
# is in OUT as in WHOLE; else the last line says that the destination or an image failed, or the output did.
keeps() {
    last=$(tail -n 1 "$folder/text")
    case $2:$last in
    0:directories* | 1:'error: lost block'*)
        diff -r "$3" "$4" >/dev/null || complain "$1: ended with $2, and not all stands there"
        ;;
    4:'error: '*) ;;
    4:*) [ -s "$folder/text" ] && complain "$1: ended with 4 and no line of it" ;;
    *) complain "$1: ended with $2: $last" ;;
    esac
}

"$program" restore "$folder/lost" "$set5/b" >"$folder/text"
[ $? = 1 ] || complain 'a lost block: another status than 1'
"$program" restore "$folder/whole" "$set5/a" "$set5/c" >"$folder/text"
status=$?
[ "$status" = 0 ] || complain 'a whole set: another status than 0'
[ -z "$(find "$folder/whole" -type f ! -perm 600)" ] || complain 'a file is not private'
[ -z "$(find "$folder/whole" -type d ! -perm 700)" ] || complain 'a folder is not private'

# full WHAT OPTIONS IMAGES..: into a mounted file system.
mkdir "$folder/mounted"
full() {
    what=$1
    options=$2
    whole=$3
    shift 3
    # shellcheck disable=SC2086
    mount $options "$folder/mounted" || { complain "$what: cannot be mounted"; return; }
    "$program" restore "$folder/mounted/out" "$@" >"$folder/text"
    keeps "$what" $? "$whole" "$folder/mounted/out"
    umount "$folder/mounted"
}

if [ "$(id -u)" = 0 ]; then
    room=$(du -sk "$folder/lost" | cut -f1)
    for more in -36 -24 -16 -12 -8 -4 0 4 12 64; do
        size=$((room + more))
        [ "$size" -gt 0 ] || size=4
        full "a tmpfs of $size KiB around a lost block" "-t tmpfs -o size=${size}k tmpfs" "$folder/lost" "$set5/b"
    done
    truncate -s 64K "$folder/disk"
    if mkfs.ext4 -q -F -O ^has_journal "$folder/disk" 2>/dev/null; then
        full 'an ext4 of 64 KiB' "-o loop $folder/disk" "$folder/whole" "$set5/a" "$set5/c"
    fi
fi

# Each call of the system fails once, at each of its first times, or is interrupted once.
if command -v strace >/dev/null 2>&1; then
    for call in openat mkdir chdir stat lstat fstat newfstatat lseek pread64 pwrite64 ftruncate write; do
        for error in EIO EINTR ENOSPC; do
            for time in 1 2 3 5 8; do
                rm -rf "$folder/out"
                strace -qq -o /dev/null -e trace="$call" -e inject="$call:error=$error:when=$time" \
                    "$binary" restore "$folder/out" "$set5/a" "$set5/c" >"$folder/text" 2>/dev/null
                status=$?
                # (the first calls are the loader's, before the program begins)
                [ "$status" != 127 ] || continue
                keeps "$call $time $error" "$status" "$folder/whole" "$folder/out"
                case $call:$error in
                pread64:EINTR | pwrite64:EINTR | write:EINTR)
                    [ "$status" = 0 ] || complain "$call $time was not made again"
                    ;;
                esac
            done
        done
    done
fi

# A folder of the destination is moved away, and a link to another folder stands in its place, again and again.
mkdir "$folder/elsewhere"
for _ in 1 2 3 4 5 6 7 8 9 10; do
    rm -rf "$folder/out"
    mkdir "$folder/out"
    (
        while :; do
            for sub in "$folder"/out/*; do
                [ -d "$sub" ] || continue
                mv "$sub" "$folder/away" && ln -s "$folder/elsewhere" "$sub" && rm "$sub"
                [ -d "$folder/away" ] && mv "$folder/away" "$sub"
            done
        done
    ) 2>/dev/null &
    mover=$!
    "$program" restore "$folder/out" "$made"/* >"$folder/text"
    status=$?
    kill "$mover"
    wait "$mover" 2>/dev/null
    rm -rf "$folder/away"
    [ "$status" = 0 ] || [ "$status" = 4 ] || complain "a folder that is moved: ended with $status"
    [ -z "$(ls -A "$folder/elsewhere")" ] || complain 'a folder that is moved: a file stands elsewhere'
done
exit "$wrong"
