# Runs the program, with what the launcher says before it and after it. All of that goes to the standard error.
# shellcheck shell=sh disable=SC1091,SC2154,SC3013

# Reads the words as far as the launcher needs them: the kind of command, the destination, and how many words stand before the images.
# There is no kind where the words are no command, which the program then says.
read_words() {
    kind='' destination='' before=0
    case ${1-} in
    super) kind=super before=1 ;;
    check)
        kind=check before=1
        [ "${2-}" != --check-data-csum ] || before=2
        ;;
    scrub)
        [ "${2-}" != start ] || kind=scrub before=2
        [ "${3-}" != -r ] || kind=${kind:+count} before=3
        ;;
    inspect-internal)
        [ "${2-}" != dump-tree ] || read_dump "${3-}" "${4-}"
        [ "${2-}" != logical-resolve ] || ! is_number "${3-}" || kind=dump before=3
        ;;
    restore) read_restore "$@" ;;
    send) read_send "$@" ;;
    esac
    [ $# -gt "$before" ] || kind=''
    [ -n "$kind" ] || return 0
    shift "$before"
    for image; do
        case $image in
        '' | -*) kind='' ;;
        esac
    done
}

read_dump() {
    case $1 in
    -r) kind=dump before=3 ;;
    -b | -t) is_number "$2" && kind=dump before=4 ;;
    *) kind=dump before=2 ;;
    esac
}

is_number() {
    case $1 in
    '' | *[!0-9]* | 0?*) return 1 ;;
    esac
}

# The words after restore: options, each at most once, then the destination.
read_restore() {
    shift
    before=1 given=' ' wanted=restore
    if [ "${1-}" = -l ]; then
        kind=roots before=2
        return
    fi
    while [ $# -gt 0 ]; do
        before=$((before + 1))
        case $given in *" $1 "*) return ;; esac
        given="$given$1 "
        case $1 in
        -r)
            is_number "${2-}" || return
            before=$((before + 1))
            shift
            ;;
        -D)
            case $given in *' -i '*) return ;; esac
            wanted=dry
            ;;
        -i) [ "$wanted" = restore ] || return ;;
        -s | -v) ;;
        '' | -*) return ;;
        *)
            kind=$wanted destination=$1
            return
            ;;
        esac
        shift
    done
}

# The words after send: an id, the destination, and the name of the file.
read_send() {
    shift
    before=3
    if [ "${1-}" = -r ]; then
        is_number "${2-}" || return
        before=5
        shift 2
    fi
    case ${1-} in '' | -*) return ;; esac
    case ${2-} in '' | -* | */* | . | ..) return ;; esac
    kind=send destination=$1
}

# in_use FOLDER: whether the block device with this folder in /sys is mounted, or a partition, a mapping or a loop device that stands on it.
in_use() {
    for device in /sys/fs/btrfs/*/devices/"${1##*/}"; do
        [ -e "$device" ] && return
    done
    read -r numbers <"$1/dev" || return
    awk -v device="$numbers" '$3 == device { found = 1 } END { exit !found }' /proc/self/mountinfo && return
    for above in "$1/${1##*/}"* "$1"/holders/*; do
        [ -e "$above/dev" ] && in_use "$(readlink -f "$above")" && return
    done
    under_loop "/dev/${1##*/}"
}

# under_loop FILE: whether a loop device over this file or device is in use.
under_loop() {
    for loop in /sys/block/loop*; do
        [ -r "$loop/loop/backing_file" ] || continue
        read -r backing <"$loop/loop/backing_file"
        [ "$backing" -ef "$1" ] && in_use "$(readlink -f "$loop")" && return
    done
    return 1
}

is_mounted() {
    if [ -b "$1" ]; then
        in_use "$(readlink -f "/sys/dev/block/$(printf '%d:%d' "0x$(stat -L -c %t "$1")" "0x$(stat -L -c %T "$1")")")"
    else
        under_loop "$1"
    fi
}

# Ends where an image that would be written is mounted.
refuse_mounted() {
    number=0
    for image; do
        if is_mounted "$image"; then
            say "image $number ($image) is mounted, or something that stands on it is: unmount it, and call again; nothing was written"
            exit 3
        fi
        number=$((number + 1))
    done
}

# Says which images are older than the newest of the same filesystem.
say_older() {
    [ $# -gt 1 ] || return 0
    number=0
    for image; do
        "$program" super "$image" 2>/dev/null | awk -v number="$number" '
            $1 == "fsid" { fsid = $2 }
            $1 == "generation" && !found { found = 1; print number, fsid, $2 }'
        number=$((number + 1))
    done | awk '
        { fsid[NR] = $2; generation[NR] = $3; at[NR] = $1 }
        $3 + 0 > newest { newest = $3 + 0; first = NR }
        END { for (i = 1; i <= NR; i++)
            if (fsid[i] == fsid[first] && generation[i] + 0 < newest) print at[i], newest - generation[i], at[first] }
    ' | while read -r old by new; do
        say "image $old is older than image $new by $by generations: it missed the last writes"
        say "  it is read last: trees and files with checksums don't suffer, but a file without checksums has old bytes where no other image has them"
        say "  where old bytes are worse than none, leave image $old out"
    done
}

files_below() {
    find "$1" -type f -print0 2>/dev/null | tr -dc '\000' | wc -c
}

# show_progress PROCESS DESTINATION FILES: what a restore has read and written so far, each second, where so many files were there before.
show_progress() {
    while sleep 1 && kill -0 "$1" 2>/dev/null; do
        read_so_far=$(sed -n 's/^rchar: //p' "/proc/$1/io" 2>/dev/null)
        [ -n "$read_so_far" ] || continue
        printf '\r\033[K%s MB read, %s files done\r' $((read_so_far / 1000000)) $(($(files_below "$2") - $3)) >&2
    done
}

# Starts the program, with the caller's standard input, which a shell takes away from what runs beside it.
start() {
    if { true 9<&0; } 2>/dev/null; then
        exec 9<&0
        "$program" "$@" <&9 9<&- &
        running=$!
        exec 9<&-
    else
        "$program" "$@" &
        running=$!
    fi
}

# Runs the program and sets its status. A signal ends both.
run_program() {
    running='' shower='' there='' earlier=${!-}
    [ "$kind" != restore ] || [ ! -t 2 ] || there=$(files_below "$destination")
    trap 'stop_program 129' HUP
    trap 'stop_program 130' INT
    trap 'stop_program 131' QUIT
    trap 'stop_program 143' TERM
    start "$@"
    if [ -n "$there" ]; then
        show_progress "$running" "$destination" "$there" >/dev/null &
        shower=$!
    fi
    wait "$running"
    status=$?
    stop_showing
    trap - HUP INT QUIT TERM
}

stop_showing() {
    [ -n "$shower" ] || return 0
    kill "$shower" 2>/dev/null
    wait "$shower" 2>/dev/null
    printf '\r\033[K' >&2
}

# stop_program STATUS: ends the program, and then the launcher.
stop_program() {
    # (a signal may come before the number of the program is noted)
    [ -n "$running" ] || [ "${!-}" = "$earlier" ] || running=$!
    if [ -n "$running" ]; then
        kill -TERM "$running" 2>/dev/null
        wait "$running" 2>/dev/null
    fi
    stop_showing
    exit "$1"
}

# Waits until what was restored is on the disk. Where that fails the status is 4.
sync_destination() {
    case $status in
    2 | 3) return ;;
    esac
    [ -d "$destination" ] || return 0
    reason=$(LC_ALL=C sync -f -- "$destination" 2>&1) && return
    say "the destination failed: $destination couldn't be synced (${reason##*: }), so what was restored may not be on the disk"
    status=4
}

# Says which word no command has at its place.
explain_usage() {
    at=$("$program" "$@" 2>/dev/null | sed -n 's/^error: usage error at word //p')
    [ -n "$at" ] || return
    . "$parts/help.sh"
    number=0
    for word; do
        note=''
        [ "$number" = "$at" ] && note='    <- no command has this word here'
        is_text "$word" || note="$note (it isn't valid UTF-8: a link with another name helps)"
        say "word $number: $word$note"
        number=$((number + 1))
    done
    [ "$number" != "$at" ] || say "word $number: more words are missing here"
    usage_for "$@"
}

is_text() {
    command -v iconv >/dev/null 2>&1 || return 0
    printf '%s' "$1" | iconv -f UTF-8 -t UTF-8 >/dev/null 2>&1
}

# The sentence of the command, or those of all.
usage_for() {
    case ${1-} in
    super | check | scrub | restore | send) "help_$1" | sed -n '1,/^$/p' ;;
    self-test) help_self_test | sed -n '1,/^$/p' ;;
    inspect-internal)
        [ "${2-}" = logical-resolve ] || help_dump_tree | sed -n '1,/^$/p'
        [ "${2-}" = dump-tree ] || help_logical_resolve | sed -n '1,/^$/p'
        ;;
    *) help | sed -n '1,/^  COMMAND/{/^  COMMAND/!p}' ;;
    esac >&2
}

# Why an image can't be opened or read where its superblocks stand, as the system says it; nothing where it can.
reason_of() {
    if [ -d "$1" ]; then
        echo 'it is a folder'
    elif [ -e "$1" ] && [ ! -f "$1" ] && [ ! -b "$1" ]; then
        echo 'it is neither a file nor a block device'
    else
        for place in 16 16384 67108864; do
            LC_ALL=C dd if="$1" of=/dev/null bs=4096 skip="$place" count=1 2>&1 | sed -n 's/^dd: \(failed to open\|error reading\) .*: //p'
        done
        [ "$kind" != scrub ] || LC_ALL=C dd if=/dev/null of="$1" bs=4096 count=0 conv=nocreat,notrunc 2>&1 | sed -n 's/^dd: failed to open .*: //p'
    fi | head -n 1
}

# Says what can be seen of the destination, if there is one: why it can't be written, or how much room it has.
explain_destination() {
    [ -n "$destination" ] && [ "$kind" != dry ] || return 0
    parent=${destination%"${destination##*[!/]}"}
    case $parent in
    */*) parent=${parent%/*}/ ;;
    *) parent=. ;;
    esac
    if [ ! -d "$parent" ]; then
        say "the destination is $destination: there is no folder $parent"
    elif [ -e "$destination" ] && [ ! -d "$destination" ]; then
        say "the destination is $destination: it is no folder"
    elif [ -d "$destination" ] && [ ! -w "$destination" ]; then
        say "the destination is $destination: it can't be written"
    else
        [ -d "$destination" ] && parent=$destination
        free=$(LC_ALL=C df -Pk -- "$parent" 2>/dev/null | awk 'NR == 2 { print int($4 * 1024 / 1000000) }')
        say "the destination is $destination${free:+, with $free MB free; nothing that is there is overwritten}"
    fi
}

# Says of each image that can't be opened or read what it is called, and why. Where all can be, only what each is called.
explain_images() {
    shift "$before"
    number=0 found=''
    for image; do
        reason=$(reason_of "$image")
        [ -z "$reason" ] || say "image $number is $image: $reason"
        found=$found$reason
        number=$((number + 1))
    done
    [ -z "$found" ] || return 0
    number=0
    for image; do
        say "image $number is $image"
        number=$((number + 1))
    done
}

# Says what the features are called for which a filesystem is refused, if there are any.
explain_features() {
    shift "$before"
    bits=$("$program" super "$@" 2>/dev/null | sed -n 's/^compat .* incompat \([0-9a-f]\{16\}\)$/\1/p')
    [ -n "$bits" ] || return 0
    . "$parts/help.sh"
    unread_features "0x$bits" | while IFS= read -r feature; do say "feature $feature"; done
}

# What is looked at before the images are read, and before a scrub writes to them.
look_first() {
    shift "$before"
    [ "$kind" != scrub ] || refuse_mounted "$@"
    ! can_say || say_older "$@"
}

# Whether the standard error is open.
can_say() {
    true 9>&2
}

run() {
    read_words "$@"
    [ -z "$kind" ] || look_first "$@"
    run_program "$@"
    case $kind in
    restore | send) sync_destination ;;
    esac
    case $status in
    2) ! can_say || explain_usage "$@" ;;
    3) [ -z "$kind" ] || ! can_say || explain_features "$@" ;;
    4)
        if [ -n "$kind" ] && can_say; then
            explain_images "$@"
            explain_destination
        fi
        ;;
    esac
    exit "$status"
}
