# What the tests over filesystems of this machine's kernel share: counts, and images on loop devices.
# shellcheck shell=bash
failed=0
passed=0
devices=()

# Counts whether what was said is what was wanted.
holds() {
    if [ "$2" = "$3" ]; then passed=$((passed + 1)); else failed=$((failed + 1)) && echo "$1: $2 (wanted: $3)"; fi
}

# Attaches the images to loop devices, in their order, and has the kernel know of these alone.
attach() {
    devices=()
    for image in "$@"; do devices+=("$(losetup -f --show "$image")"); done
    btrfs device scan "${devices[@]}" >/dev/null 2>&1
}

# Takes them from their devices again.
detach() {
    for device in "${devices[@]}"; do btrfs device scan --forget "$device" >/dev/null 2>&1; losetup -d "$device"; done
}
