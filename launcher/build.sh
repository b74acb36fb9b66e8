# Proves and builds the program of a checkout, where that is needed.
# shellcheck shell=sh disable=SC2154,SC3013
#
# The crates of the program are proved in a folder of the build's own, below the user's cache, where no other command of the kit has to
# wait for them, or they for it. Crates that don't depend on each other are proved side by side. What is proved stays there, so a build
# that was cut off goes on where it was, and one after an edit proves only what changed.

folder=$top/crates/btr_tool/out/launcher
program=$folder/btr_tool
stamp=$folder/stamp
log=$folder/log

# Sets the whole name of the checkout, and the folder of its builds.
find_room() {
    place=$(CDPATH='' cd -- "$top" && pwd -P)
    room=${XDG_CACHE_HOME:-${HOME:-/var/tmp}/.cache}/btrfs-offline/$(printf '%s' "$place" | cksum | cut -d ' ' -f 1)
}

# The lines of crates.txt for the crates that the program is made of, those that others stand on first.
needed_lines() {
    awk -F: '
        function visit(name,    parts, count, i) {
            if (!(name in needs) || (name in seen)) return
            seen[name] = 1
            count = split(needs[name], parts, " ")
            for (i = 1; i <= count; i++) visit(parts[i])
            print line[name]
        }
        !/^ *#/ && NF > 1 { split($1, words, " "); needs[words[1]] = $2; line[words[1]] = $0 }
        END { visit("btr_tool") }
    ' "$place/crates.txt"
}

needed_crates() {
    needed_lines | sed 's/[ :].*//'
}

# One checksum of all that the program is built from.
sum_of_sources() {
    (
        cd "$place" || exit
        for crate in $(needed_crates); do
            find "crates/$crate/src" "crates/$crate/specs" "crates/$crate/proofs" -type f 2>/dev/null
        done | LC_ALL=C sort | xargs cksum crates.txt HANDLES 2>/dev/null | cksum
    )
}

has_rt() {
    command -v rt >/dev/null 2>&1
}

# Whether the program was built from these sources.
has_these_sources() {
    [ -x "$program" ] && [ -f "$stamp" ] || return 1
    { read -r built_kit && read -r built_sum; } <"$stamp" || return 1
    [ "$(sum_of_sources)" = "$built_sum" ]
}

# The same, and by this kit. Where there is no kit, the one that built it counts.
is_current() {
    has_these_sources || return 1
    ! has_rt || [ "$(rt version)" = "$built_kit" ]
}

# Takes the lock of the build, which ends with the launcher.
lock() {
    exec 9>>"$folder/lock"
    command -v flock >/dev/null 2>&1 || return 0
    flock -n 9 && return
    say 'another call is building the program; waiting for it'
    flock 9
}

# Makes the room. Where nothing can be written there it is one for this build alone.
make_room() {
    lent=''
    mkdir -p "$room/crates" 2>/dev/null && [ -w "$room" ] && return
    room=$(mktemp -d "${TMPDIR:-/var/tmp}/btrfs-offline.XXXXXX") && lent=$room && mkdir "$room/crates"
}

leave_room() {
    [ -z "$lent" ] || rm -rf "$lent"
}

# Copies the sources into the room, where what was proved of them before stays.
fill_room() {
    needed_lines >"$room/crates.txt" && cp "$place/HANDLES" "$room/HANDLES" || return
    for old in "$room"/crates/*; do
        needed_crates | grep -qx "${old##*/}" || rm -rf "$old"
    done
    for crate in $(needed_crates); do
        mkdir -p "$room/crates/$crate" || return
        for part in src specs proofs; do
            rm -rf "$room/crates/$crate/$part"
            [ ! -d "$place/crates/$crate/$part" ] || cp -R "$place/crates/$crate/$part" "$room/crates/$crate/" || return
        done
        # (a library without a stamp is one whose proof was cut off)
        [ -f "$room/crates/$crate/out/rlib/stamp" ] || rm -rf "$room/crates/$crate/out/rlib"
    done
}

# How many crates are proved side by side: one a processor, as far as each has 2.5 GB of memory. RT_JOBS says it otherwise.
side_by_side() {
    count=$(getconf _NPROCESSORS_ONLN 2>/dev/null || echo 1)
    fitting=$(awk '/^MemAvailable:/ { print int($2 / 2441406) }' /proc/meminfo 2>/dev/null)
    [ "${fitting:-1}" -lt "$count" ] && count=$fitting
    [ "${count:-0}" -ge 1 ] || count=1
    echo "${RT_JOBS:-$count}"
}

# The crate that has been proved for the longest time by now, and since how many seconds.
longest() {
    now=$(date +%s)
    for crate in $(needed_crates); do
        at=$room/crates/$crate/out/rlib
        [ -d "$at" ] && [ ! -f "$at/stamp" ] && echo "$(($(stat -c %Y "$at") - now)) $crate"
    done | sort -n | head -n 1
}

# since SECONDS: in words
since() {
    if [ "$1" -lt 60 ]; then echo "$1 s"; else echo "$(($1 / 60)) min"; fi
}

# How far the build is, in one line: 24 of 29 crates, btr_scrub_row since 3 min
progress() {
    all=$(needed_crates | wc -l)
    line="$(grep -c '^== btr_' "$log") of $((all)) crates"
    longest | {
        read -r seconds crate && line="$line, $crate since $(since $((-seconds)))"
        echo "$line"
    }
}

# Says how far the build is as long as it goes on: on a terminal in one line that is written over, elsewhere once a minute.
report() {
    exec 9>&- >/dev/null
    waited=0
    while sleep 1 2>/dev/null && kill -0 "$1" 2>/dev/null; do
        waited=$((waited + 1))
        if [ -t 2 ]; then
            printf '\r\033[Kbtrfs-offline: %s\r' "$(progress)" >&2
        elif [ $((waited % 60)) = 0 ]; then
            say "$(progress)"
        fi
    done
}

# in_room WHERE WORDS: runs rt there, says how far it is, and ends with its status. A signal ends rt too.
in_room() {
    builder='' reporter='' earlier=${!-}
    trap 'stop_building 129' HUP
    trap 'stop_building 130' INT
    trap 'stop_building 131' QUIT
    trap 'stop_building 143' TERM
    (cd "$room/$1" && shift && exec rt "$@") >>"$log" 2>&1 </dev/null 9>&- &
    builder=$!
    report "$builder" &
    reporter=$!
    wait "$builder"
    built=$?
    trap - HUP INT QUIT TERM
    stop_reporting
    return "$built"
}

stop_reporting() {
    if [ -n "$reporter" ]; then
        kill "$reporter" 2>/dev/null
        wait "$reporter" 2>/dev/null
    fi
    [ ! -t 2 ] || printf '\r\033[K' >&2
}

stop_building() {
    # (a signal may come before the number of the process is noted)
    [ -n "$builder" ] || [ "${!-}" = "$earlier" ] || builder=$!
    if [ -n "$builder" ]; then
        kill -TERM "$builder" 2>/dev/null
        wait "$builder" 2>/dev/null
    fi
    stop_reporting
    leave_room
    say 'the build was cut off; the next call goes on with it'
    exit "$1"
}

# Proves the crates side by side, and once more one after another where one was killed, as where memory runs out, and then makes the program.
prove_and_make() {
    true >"$log"
    if ! in_room . all check --jobs "$(side_by_side)"; then
        grep -q 'was killed\|failed (-9)' "$log" || return
        true >"$log"
        in_room . all check --jobs 1 || return
    fi
    in_room crates/btr_tool run -- super "$place/crates/btr_tool/data/first.img"
}

build() {
    kit=$(rt version)
    say "proving and building the program with $kit"
    say 'at the first use this takes long: the proofs are an hour or two of processor time (docs/SPEED.md)'
    printf '%s\n%s\n' "$kit" "$(sum_of_sources)" >"$stamp.new"
    if ! { make_room && fill_room; }; then
        leave_room
        say "the sources couldn't be copied into $room; XDG_CACHE_HOME names another place"
        exit 126
    fi
    if ! prove_and_make; then
        leave_room
        say "the program couldn't be built in $room; $log says why"
        exit 126
    fi
    if ! { cp "$room/crates/btr_tool/out/btr_tool" "$program.new" && mv "$program.new" "$program" && mv "$stamp.new" "$stamp"; }; then
        say "the program is built, but couldn't be copied into $folder"
        exit 126
    fi
    leave_room
    [ -n "$lent" ] || say "built; what was proved is kept for the next build in $room, which may be removed"
}

# Builds the program where that is needed.
update() {
    find_room
    if is_current; then
        touch "$stamp" 2>/dev/null
        return
    fi
    if [ -x "$program" ]; then
        why="the sources or the kit have changed since the program was built"
    else
        why="the program isn't built yet"
    fi
    if ! has_rt; then
        say "$why, and rt, which proves and builds it, isn't on the PATH"
        exit 127
    fi
    if ! { mkdir -p "$folder" && true >>"$folder/lock"; } 2>/dev/null; then
        has_these_sources && return
        say "$why, and nothing can be written under $place/crates/btr_tool; whoever may write there builds it by $self --build"
        exit 126
    fi
    lock
    is_current || build
    exec 9>&-
}

# Whether the checkout may have changed since the build.
may_have_changed() {
    [ -x "$program" ] && [ -f "$stamp" ] || return 0
    index=$top/.git/index
    if [ -f "$top/.git" ]; then
        read -r _ gitdir <"$top/.git"
        case $gitdir in
        /*) index=$gitdir/index ;;
        *) index=$top/$gitdir/index ;;
        esac
    fi
    [ "$index" -nt "$stamp" ] || [ "$top/crates.txt" -nt "$stamp" ]
}
