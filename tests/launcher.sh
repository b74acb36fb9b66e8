#!/bin/bash
# Tests the launcher, by scripts in place of the program and of `rt`:
#
#     tests/launcher.sh
#
# It needs neither the kit nor a built program, and takes half a minute. What is mounted is tested only as root, by a loop device, and what
# is shown on a terminal only where `script` is; what is left out is named. The gate doesn't run it. Ends with 0 where all is as it should be.
set -u
top=$(cd "$(dirname "$0")/.." && pwd)
room=$(mktemp -d)
leave() {
    umount "$room/mount" 2>/dev/null
    for each in "${loop:-}" "${first:-}" "${second:-}"; do
        [ -z "$each" ] || losetup -d "$each"
    done
    rm -rf "$room"
}
trap leave EXIT
passed=0 failed=0

# is WHAT WANTED GOT
is() {
    if [ "$2" = "$3" ]; then
        passed=$((passed + 1))
    else
        failed=$((failed + 1))
        printf '%s: wanted\n%s\ngot\n%s\n' "$1" "$2" "$3"
    fi
}

# has WHAT PATTERN TEXT: whether a line of the text matches
has() {
    if grep -qe "$2" <<<"$3"; then is "$1" 0 0; else is "$1" "a line with: $2" "$3"; fi
}

# A release whose program is a script that does what $room/does says. Of `super IMAGE` alone it prints IMAGE.super.
release() {
    mkdir -p "$room/bin" "$room/lib/btrfs-offline" "$room/stubs" "$room/to"
    cp "$top/btrfs-offline" "$room/bin/"
    cp -R "$top/launcher" "$room/lib/btrfs-offline/"
    cat >"$room/lib/btrfs-offline/btr_tool" <<STUB
#!/bin/bash
[ "\$1" != super ] || [ \$# != 2 ] || [ ! -f "\$2.super" ] || exec cat "\$2.super"
echo "\$*" >>"$room/calls"
. "$room/does"
STUB
    chmod +x "$room/lib/btrfs-offline/btr_tool"
    printf '#!/bin/sh\necho "$*" >>"%s/syncs"\n. "%s/sync-does"\n' "$room" "$room" >"$room/stubs/sync"
    chmod +x "$room/stubs/sync"
    true >"$room/sync-does"
    cd "$room" && for name in a b c; do echo "image $name" >"$name"; done
}

# call WORDS: runs the launcher; out, err and status are what came of it
call() {
    rm -f "$room/calls" "$room/syncs"
    PATH=$room/stubs:$PATH "$room/bin/btrfs-offline" "$@" >"$room/out" 2>"$room/err"
    status=$?
    out=$(cat "$room/out") err=$(cat "$room/err")
}

does() {
    printf '%s\n' "$1" >"$room/does"
}

super_of() {
    printf 'slot 0 place 65536\nfsid %s\ngeneration %s\nchunk_root 1 level 0 generation 9\n' "$2" "$3" >"$1.super"
}

test_untouched() {
    for ends in 0 1 2 3 4 5; do
        does "printf 'a\\001\\n\\nerror: x\\n'; exit $ends"
        call check a
        is "status $ends" "$ends" "$status"
        is "output at status $ends" "$(printf 'a\001\n\nerror: x\n' | cksum)" "$(cksum <"$room/out")"
    done
    does 'exit 0'
    call super a
    is 'nothing is added' '' "$out$err"
    call super 'a b' 'c*'
    is 'words stay as they are' 'super a b c*' "$(tail -n 1 "$room/calls")"
    "$room/bin/btrfs-offline" super a 2>&-
    is 'a closed standard error' 0 $?
    "$room/bin/btrfs-offline" super a <&- >"$room/out"
    is 'a closed standard input' 0 $?
    does 'cat'
    is 'the standard input' 'of the caller' "$(echo 'of the caller' | "$room/bin/btrfs-offline" super a)"
}

test_help() {
    for words in --help -h help 'super -h' 'check --help' 'restore -h' 'send -h' 'self-test -h' 'scrub -h' 'scrub start --help' 'inspect-internal -h' 'inspect-internal dump-tree -h' \
        'inspect-internal logical-resolve -h'; do
        # shellcheck disable=SC2086
        call $words
        has "$words" '^usage: btrfs-offline ' "$out"
        is "$words: status" 0 "$status"
    done
    call --version
    has 'the version' '^btrfs-offline [0-9]' "$out"
    call --build
    is 'a release builds nothing' 2 "$status"
    does 'echo "$#"; exit 2'
    call restore
    is 'no help is asked for' '2 1' "$status $out"
}

test_usage() {
    does 'echo "error: usage error at word 1"; exit 2'
    call restore -x a
    is 'usage: output' 'error: usage error at word 1' "$out"
    has 'usage: the word' '^btrfs-offline: word 1: -x    <- no command has this word here$' "$err"
    has 'usage: the others' '^btrfs-offline: word 0: restore$' "$err"
    has 'usage: the sentence' '^usage: btrfs-offline restore \[-r N\]' "$err"
    does 'echo "error: usage error at word 2"; exit 2'
    call scrub start
    has 'usage: what is missing' '^btrfs-offline: word 2: more words are missing here$' "$err"
    has 'usage: the sentence of scrub' '^usage: btrfs-offline scrub start' "$err"
    does 'echo "error: usage error at word 0"; exit 2'
    call repair a
    has 'usage: all sentences' '^  check IMAGES' "$err"
    does 'echo "error: usage error at word 1"; exit 2'
    call super $'\xff'
    has 'usage: no UTF-8' "it isn't valid UTF-8" "$err"
}

test_features() {
    # shellcheck disable=SC2016
    does 'case $1 in super) echo "compat 0000000000000000 compat_ro 0000000000000000 incompat 0000000000101361" ;; *) echo "error: unsupported features 0000000000101000"; exit 3 ;; esac'
    call check a
    is 'features: status and output' '3 error: unsupported features 0000000000101000' "$status $out"
    has 'features: one with a name' '^btrfs-offline: feature 1000 is ZONED' "$err"
    has 'features: one without' '^btrfs-offline: feature 100000 has no name here$' "$err"
}

test_images() {
    mkfifo "$room/pipe" && mkdir "$room/folder"
    does 'echo "error: image 1 failed"; exit 4'
    call check a missing folder pipe b
    has 'a missing image' '^btrfs-offline: image 1 is missing: No such file or directory$' "$err"
    has 'a folder' '^btrfs-offline: image 2 is folder: it is a folder$' "$err"
    has 'a pipe' '^btrfs-offline: image 3 is pipe: it is neither a file nor a block device$' "$err"
    is 'those alone are named' 3 "$(wc -l <"$room/err")"
    call inspect-internal dump-tree -t 5 missing
    has 'behind an option' '^btrfs-offline: image 0 is missing: ' "$err"
    call inspect-internal logical-resolve 16777216 missing
    has 'behind an address' '^btrfs-offline: image 0 is missing: ' "$err"
    call send -r 300 to name missing
    has 'behind a name' '^btrfs-offline: image 0 is missing: ' "$err"
    call restore -s -i -r 300 to missing
    has 'behind a destination' '^btrfs-offline: image 0 is missing: ' "$err"
    is 'as the program saw it' 'error: image 1 failed' "$out"
    has 'the destination, and its room' '^btrfs-offline: the destination is to, with [0-9]* MB free; nothing that is there is overwritten$' "$err"
    call restore to/ a
    has 'a slash after its name' '^btrfs-offline: the destination is to/, with [0-9]* MB free' "$err"
    call restore none/to/ a
    has 'no parent, and a slash' '^btrfs-offline: the destination is none/to/: there is no folder none/$' "$err"
    call restore none/to a
    has 'a destination without a parent' '^btrfs-offline: the destination is none/to: there is no folder none/$' "$err"
    call send b name a
    has 'a destination that is a file' '^btrfs-offline: the destination is b: it is no folder$' "$err"
    call restore -D to a
    is 'a dry run has no destination' 'btrfs-offline: image 0 is a' "$err"
    call check a b
    is 'whole images are named' 'btrfs-offline: image 0 is a,btrfs-offline: image 1 is b' "$(paste -sd , "$room/err")"
}

test_older() {
    super_of a one 20
    super_of b one 8
    super_of c two 30
    does 'exit 0'
    call check a b
    has 'an older image' '^btrfs-offline: image 1 is older than image 0 by 12 generations' "$err"
    has 'what that means' '^btrfs-offline:   it is read last: .* a file without checksums has old bytes where no other image has them$' "$err"
    has 'what to do' '^btrfs-offline:   where old bytes are worse than none, leave image 1 out$' "$err"
    call check b a
    has 'in either order' '^btrfs-offline: image 0 is older than image 1 by 12 generations' "$err"
    call check b
    is 'one image' '' "$err"
    call check a c
    is 'another filesystem' '' "$err"
    call check -x a b
    is 'no images are looked at for words that are no command' '-x' "$(sed -n 's/^check \(-x\) .*/\1/p' "$room/calls")$err"
    super_of b one 20
    call restore to a b
    is 'images of one generation' '' "$err"
    rm -f ./*.super
}

test_sync() {
    does 'echo "directories 0 files 0 skipped 0"'
    call restore to a
    is 'the destination is synced' "-f -- to" "$(cat syncs)"
    is 'its status' 0 "$status"
    for words in 'restore -i to a' 'restore -r 257 -s -v to a' 'send to name a' 'send -r 257 to name a'; do
        # shellcheck disable=SC2086
        call $words
        is "$words: the destination is synced" "-f -- to" "$(cat syncs)"
    done
    does 'echo "error: lost block 4096"; exit 1'
    call restore to a
    is 'also after a lost block' "1 -f -- to" "$status $(cat syncs)"
    does 'echo "directories 0 files 0 skipped 0"'
    for words in 'restore -D to a' 'restore -l a' 'check a' 'restore -x to a'; do
        # shellcheck disable=SC2086
        call $words
        is "$words: nothing is synced" '' "$(cat syncs 2>/dev/null)"
    done
    echo 'echo "sync: error syncing '\''to'\'': Input/output error" >&2; exit 1' >sync-does
    call restore -v to a
    is 'a failed sync' 4 "$status"
    is 'the output stays' 'directories 0 files 0 skipped 0' "$out"
    has 'its line' "^btrfs-offline: the destination failed: to couldn't be synced (Input/output error)" "$err"
    true >sync-does
}

# A filesystem of two devices that is mounted, which the kernel tells otherwise than one of a single device.
test_mounted_devices() {
    truncate -s 128M first second
    first='' second=''
    command -v mkfs.btrfs >/dev/null 2>&1 && mkfs.btrfs -q -d raid1 -m raid1 first second >/dev/null 2>&1 &&
        first=$(losetup -f --show first 2>/dev/null) && second=$(losetup -f --show second 2>/dev/null) &&
        btrfs device scan "$first" "$second" >/dev/null 2>&1 && mkdir -p mount && mount "$first" mount 2>/dev/null
    # shellcheck disable=SC2181
    if [ $? != 0 ]; then
        echo 'left out: what is mounted of several devices, which takes root, loop devices and mkfs.btrfs'
        return
    fi
    does 'echo scrubbed'
    for image in "$first" "$second" first second; do
        call scrub start "$image"
        is "mounted $image: status" 3 "$status"
        is "mounted $image: the program isn't run" '' "$out$(cat calls 2>/dev/null)"
    done
    umount mount
    call scrub start "$first" "$second"
    is 'unmounted devices' 0scrubbed "$status$out"
}

test_mounted() {
    truncate -s 8M disk && mkfs.ext4 -q disk 2>/dev/null && mkdir -p mount && loop=$(losetup -f --show disk 2>/dev/null)
    if [ -z "${loop:-}" ] || ! mount "$loop" mount 2>/dev/null; then
        echo 'left out: what is mounted, which takes root, loop devices and mkfs.ext4'
        return
    fi
    does 'echo scrubbed'
    ln -s disk link
    for image in disk "$room/link" "$loop"; do
        call scrub start a "$image"
        is "mounted $image: status" 3 "$status"
        has "mounted $image: line" "^btrfs-offline: image 1 ($image) is mounted" "$err"
        is "mounted $image: the program isn't run" '' "$out$(cat calls 2>/dev/null)"
        call scrub start -r a "$image"
        is "mounted $image: only read" 0scrubbed "$status$out"
    done
    umount mount
    call scrub start a disk "$loop"
    is 'unmounted' 0scrubbed "$status$out"
    losetup -d "$loop" && loop=''
}

# ends_by SIGNAL STATUS
ends_by() {
    does 'trap "echo ended >>'"$room"'/ended" EXIT; trap "exit 9" TERM; echo begun >>'"$room"'/ended; while true; do sleep 0.1; done'
    rm -f ended
    # (a shell starts what is in the background with SIGINT and SIGQUIT ignored, which a shell can't undo)
    env --default-signal=INT,QUIT bin/btrfs-offline restore to a >/dev/null 2>&1 &
    local launcher=$!
    for _ in $(seq 50); do [ -s ended ] && break; sleep 0.1; done
    kill -"$1" "$launcher"
    wait "$launcher"
    is "$1 ends the launcher" "$2" $?
    is "$1 ends the program" 'begun ended' "$(tr '\n' ' ' <ended | sed 's/ $//')"
}

test_signals() {
    ends_by TERM 143
    ends_by INT 130
    ends_by HUP 129
    ends_by QUIT 131
}

test_progress() {
    does 'head -c 5000000 /dev/zero >to/file; cat to/file >/dev/null; dd if=/dev/zero of=/dev/null bs=1M count=7 2>/dev/null; read -r -N 3000000 x < <(yes); sleep 2.5'
    rm -f to/file
    call restore to a
    is 'no progress where there is no terminal' '' "$err"
    rm -f to/file
    if ! command -v script >/dev/null 2>&1; then
        echo 'left out: progress on a terminal, which takes script'
        return
    fi
    has 'progress on a terminal' '[0-9] MB read, 1 files done' "$(script -qec 'bin/btrfs-offline restore to a >/dev/null' /dev/null | tr '\r' '\n')"
    is 'none for a dry run' '' "$(script -qec 'bin/btrfs-offline restore -D to a >/dev/null' /dev/null)"
}

# A checkout of three crates of the program and one beside, and an `rt` that proves each in a second, where $room/rt-does lets it.
checkout() {
    mkdir -p "$room/made"
    cp "$top/btrfs-offline" "$room/made/"
    cp -R "$top/launcher" "$room/made/"
    echo 'Handles allowed: none.' >"$room/made/HANDLES"
    printf '# a comment\nbtr_high: btr_low std\nbtr_low:\nbtr_beside: btr_low\nbtr_tool: btr_high btr_low\n' >"$room/made/crates.txt"
    for crate in low high beside tool; do
        mkdir -p "$room/made/crates/btr_$crate/src"
        echo "$crate" >"$room/made/crates/btr_$crate/src/main.rt"
    done
    mkdir -p "$room/made/crates/btr_tool/data" && true >"$room/made/crates/btr_tool/data/first.img"
    cat >"$room/stubs/rt" <<STUB
#!/bin/bash
[ "\$1" != version ] || exec echo 'a kit'
echo "\$*" >>"$room/rts"
. "$room/rt-does"
if [ "\$1" = run ]; then
    mkdir -p out
    printf '#!/bin/sh\nexit 0\n' >out/btr_tool
    exec chmod +x out/btr_tool
fi
for crate in btr_low btr_high btr_tool; do
    if [ ! -f crates/\$crate/out/rlib/stamp ]; then
        mkdir -p crates/\$crate/out/rlib
        /bin/sleep 0.\${slow:-2}
        eval "\${waits:-}"
        echo "\$crate" >>"$room/proved"
        true >crates/\$crate/out/rlib/stamp
    fi
    echo "== \$crate"
done
STUB
    chmod +x "$room/stubs/rt"
    true >"$room/rt-does"
    export XDG_CACHE_HOME=$room/cache
}

# build WORDS: runs the launcher of the checkout, in which seconds are short
build() {
    rm -f "$room/rts"
    PATH=$room/stubs:$PATH "$room/made/btrfs-offline" "$@" >"$room/out" 2>"$room/err"
    status=$?
    err=$(cat "$room/err")
}

test_build() {
    checkout
    echo 'exit 1' >"$room/rt-does"
    RT_JOBS=3 build --build
    is 'a failed build' 126 "$status"
    has 'where it says why' "the program couldn't be built in .*/cache/btrfs-offline/[0-9]*; .*/out/launcher/log says why" "$err"
    has 'crates side by side' '^all check --jobs 3$' "$(cat rts)"
    # shellcheck disable=SC2016
    echo '[ "$4" != 2 ] || { echo "rt: the check was killed, most likely for memory"; exit 1; }' >"$room/rt-does"
    RT_JOBS=2 build --build
    is 'once more one by one' 'all check --jobs 2,all check --jobs 1,run' "$(cut -d ' ' -f 1-4 rts | sed 's/^run .*/run/' | paste -sd ,)"
    is 'then it is built' 0 "$status"
    is 'only the crates of the program' 'btr_low btr_high btr_tool' "$(paste -sd ' ' proved)"
    is 'no other is copied' '' "$(find cache -name 'btr_beside*')"
    is 'nothing lies in the checkout that its own gate would read' '' "$(find made/crates/*/out -name '*.rt' -o -name crates.txt | grep -v '^made/crates.txt' | grep out/)"
    build super a
    is 'it is not built again' '0' "$status$(cat rts 2>/dev/null)$err"
    echo changed >>made/crates/btr_high/src/main.rt
    build --build
    is 'an edit is built' 0 "$status"
    has 'and named' 'the program is built' "$err"
    echo changed again >>made/crates/btr_high/src/main.rt
    mkdir room
    TMPDIR=/proc/self XDG_CACHE_HOME=/proc/self/nowhere build --build
    is 'no room for a build' 126 "$status"
    has 'it says so' "the sources couldn't be copied" "$err"
    TMPDIR=$room/room XDG_CACHE_HOME=/proc/self/nowhere build --build
    is 'a room for one build' 0 "$status"
    is 'is left' '' "$(ls room)"
    echo changed once more >>made/crates/btr_high/src/main.rt
    build --build
    is 'the room that is kept' 0 "$status"
    PATH=/usr/bin:/bin build super a
    is 'without rt the built one runs' 0 "$status"
}

# A build that is cut off, and what it says on the way.
test_build_goes_on() {
    rm -rf "$room/made" "$room/cache" "$room/proved"
    checkout
    echo 'slow=9' >"$room/rt-does"
    PATH=$room/stubs:$PATH "$room/made/btrfs-offline" --build 2>"$room/err" &
    local launcher=$!
    for _ in $(seq 100); do [ -s proved ] && break; sleep 0.1; done
    kill -TERM "$launcher"
    wait "$launcher"
    is 'a build is cut off' 143 $?
    has 'it says so' 'the build was cut off' "$(cat err)"
    is 'one crate was proved' btr_low "$(cat proved)"
    printf '#!/bin/sh\nexec /bin/sleep 0.002\n' >stubs/sleep && chmod +x stubs/sleep
    # (a crate is proved until its line is there, however slow the machine is)
    # shellcheck disable=SC2016
    printf 'waits='\''for _ in $(seq 300); do grep -q "of 3 crates, btr_" "%s" && break; /bin/sleep 0.1; done'\''\n' "$room/err" >"$room/rt-does"
    build --build
    is 'it goes on' 'btr_low btr_high btr_tool' "$(paste -sd ' ' proved)"
    has 'it says how far it is' '^btrfs-offline: [123] of 3 crates, btr_[a-z]* since [0-9]* s$' "$err"
    rm stubs/sleep
    command -v script >/dev/null 2>&1 || return
    rm -rf "$room/made" "$room/cache" "$room/proved"
    checkout
    echo 'slow=9' >"$room/rt-does"
    has 'on a terminal each second' $'^\033\\[Kbtrfs-offline: [012] of 3 crates, btr_' \
        "$(PATH=$room/stubs:$PATH script -qec 'made/btrfs-offline --build' /dev/null | tr '\r' '\n')"
}

release
for each in $(declare -F | sed -n 's/^declare -f \(test_.*\)/\1/p'); do
    [ -n "${ONLY:-}" ] && [ "$ONLY" != "$each" ] && continue
    "$each"
done
echo "$passed passed, $failed failed"
[ "$failed" = 0 ]
