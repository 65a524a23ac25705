#!/usr/bin/env bash
# Tries on a real file system what no contract can say: after a session whose sync failed, the next one reads what the device has, and not the
# pages that the system kept in memory. It needs root, loop devices and ext4, and takes 100 MB of memory.
#
# The file system lies on a file in memory. The selector's block of the image is cut out of that file, and then the memory is filled up, so
# that this block alone can't be written: the switch of the second command fails at its last sync.
set -eu
top=$(cd "$(dirname "$0")/.." && pwd)
work=$(mktemp -d)
loop=
cleanup() {
    mountpoint -q "$work/fs" && umount "$work/fs"
    [ -n "$loop" ] && losetup -d "$loop"
    mountpoint -q "$work/memory" && umount "$work/memory"
    rm -rf "$work"
}
trap cleanup EXIT

mkdir "$work/memory" "$work/fs"
mount -t tmpfs -o size=96m tmpfs "$work/memory"
device=$work/memory/device
dd if=/dev/zero of="$device" bs=1M count=64 status=none
loop=$(losetup -f --show "$device")
mkfs.ext4 -q -b 4096 -E nodiscard,lazy_itable_init=0,lazy_journal_init=0 "$loop"
mount "$loop" "$work/fs"
image=$work/fs/v

# Says how a session on these lines ends, and keeps its answers.
session() {
    local status=0
    printf '%s\n' "$@" | "$top/idedup" serve "$image" >"$work/answers" 2>"$work/said" || status=$?
    echo "session: $* -> status $status, answers: $(tr '\n' '|' <"$work/answers") said: $(cat "$work/said")"
}

"$top/idedup" format "$image" --blocks 2048 --log 64
session 'create /a'
# The current slot is 1 now. After this one it is 0, and the selector is zeros, as a hole in the device reads.
session 'create /b'
sync

# The block of the device that has the selector; the device loses it, and gets no memory to have it again.
physical=$(filefrag -v -b4096 "$image" | awk '$1 == "0:" { sub(/\.\..*/, "", $4); print $4 }')
fallocate -p -o "$((physical * 4096))" -l 4096 "$device"
dd if=/dev/zero of="$work/memory/fill" bs=4096 status=none 2>/dev/null || true

# The record and the root of this one are written; the selector that names the root isn't.
session 'create /c'
grep -q 'sync' "$work/said" || { echo 'the sync did not fail, so nothing was tried'; exit 2; }
[ ! -s "$work/answers" ] || { echo 'the command was acknowledged'; exit 1; }

echo "the system's copy of the selector, before the next session: $(od -A n -t x1 -N 2 "$image")"
session 'list /'
echo "the device's selector: $(dd if="$device" bs=4096 skip="$physical" count=1 status=none | od -A n -t x1 -N 2)"
grep -q 'f 4 c' "$work/answers" && { echo 'a file is listed that the device does not have'; exit 1; }
grep -q '^list 2$' "$work/answers" || { echo 'what was acknowledged is not there'; exit 1; }
echo 'passed: the next session read the device'
