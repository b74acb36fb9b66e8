#!/bin/bash
# Makes the package in two folders, on two file systems where there are two, from what is committed, with a small program in place of the
# real one; compares the bytes, looks at what is in it, and asks lintian:
#
#     tests/package.sh [PROGRAM]
#
# It needs neither the kit nor a built program, but takes one that is given; dpkg-deb, and lintian where it is there. The gate doesn't run it.
set -u
packed=$(readlink -f "${1:-/bin/true}")
top=$(cd "$(dirname "$0")/.." && pwd)
room=$(mktemp -d)
other=$(mktemp -d -p /dev/shm 2>/dev/null || mktemp -d)
trap 'rm -rf "$room" "$other"' EXIT
failed=0

# is WHAT WANTED GOT
is() {
    [ "$2" = "$3" ] && return
    failed=$((failed + 1))
    printf '%s: wanted\n%s\ngot\n%s\n' "$1" "$2" "$3"
}

# An `rt` that proves nothing, and makes a program that is on each machine, or the one that is given.
mkdir -p "$room/stubs"
cat >"$room/stubs/rt" <<STUB
#!/bin/sh
case \$1 in
version) echo 'a kit' ;;
run) mkdir -p out && cp "$packed" out/btr_tool ;;
esac
STUB
chmod +x "$room/stubs/rt"

# made FOLDER: the package of what is committed, made there
made() {
    git clone -q "$top" "$1" && (cd "$1" && PATH=$room/stubs:$PATH XDG_CACHE_HOME=$room/cache ./package 2>/dev/null >"$room/log")
    is "package in $1" 0 $?
}

made "$room/one"
(umask 077 && made "$other/a folder of another length")
for file in "$room"/one/out/*; do
    cmp "$file" "$other/a folder of another length/out/${file##*/}" || failed=$((failed + 1))
done

mkdir "$room/tarball" && tar -C "$room/tarball" --strip-components=1 -xzf "$room"/one/out/*.tar.gz
is 'the launcher of the tarball' 'btrfs-offline 0' "$("$room/tarball/bin/btrfs-offline" --version | cut -d . -f 1)"
"$room/tarball/bin/btrfs-offline" super "$room/tarball/share/doc/btrfs-offline/examples/first.img"
is 'its program runs on its example' 0 $?
is 'README names no checkout' '' "$(grep -n 'checkout\|\./btrfs-offline\|docs/' "$room/tarball/share/doc/btrfs-offline/README.md")"
has=$(cd "$room/tarball" && find . -type f | LC_ALL=C sort)
for wanted in lib/btrfs-offline/launcher/run.sh share/man/man8/btrfs-offline.8 share/doc/btrfs-offline/CLAIMS.md share/doc/btrfs-offline/CHANGELOG.md; do
    is "the tarball has $wanted" "./$wanted" "$(grep -x "./$wanted" <<<"$has")"
done
if command -v lintian >/dev/null 2>&1; then
    is 'lintian' '' "$(lintian --fail-on error --allow-root "$room"/one/out/*.deb 2>/dev/null | grep '^E:')"
    lintian --allow-root "$room"/one/out/*.deb 2>/dev/null | grep -v '^E:'
else
    echo 'left out: lintian, which is not on the PATH'
fi
echo "$failed failed"
[ "$failed" = 0 ]
