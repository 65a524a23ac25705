#!/usr/bin/env bash
# Shows what the file server does: what is typed, what it answers, and its status. First a format and a session over an image in memory, of
# which nothing is proved yet, and then, once the program is proved and built, the same and more on a scratch image.
set -eu
top=$(cd "$(dirname "$0")" && pwd)
command -v rt >/dev/null || { echo 'demo.sh: the command rt of the Rattle kit is missing' >&2; exit 1; }
scratch=$(mktemp -d)
trap 'rm -rf "$scratch"' EXIT
cd "$scratch"

idedup() {
    printf '\n$ idedup %s\n' "$*"
    local status=0
    "$top/idedup" "$@" || status=$?
    printf '(status %s)\n' "$status"
}

# Runs a session on the lines that it is given.
session() {
    printf '\n$ idedup serve v <<end of input\n'
    printf '%s\n' "$@"
    printf 'end of input\n'
    local status=0
    printf '%s\n' "$@" | "$top/idedup" serve v || status=$?
    printf '(status %s)\n' "$status"
}

first=('mkdir /My%20Photos' 'create /My%20Photos/note' 'write /My%20Photos/note 0 6' 'hello!' 'read /My%20Photos/note 0 100'
    'create /My%20Photos/note' 'chmod /My%20Photos' end)

# The program of rows serves images in memory: `call` has the words of a call, and the lines behind `>` before it are its input.
at_once() {
    printf 'call format v --blocks 2048 --log 64\n'
    printf '> %s\n' "${first[@]}"
    printf 'call serve v\n'
}

echo 'A format and a session, at once: the same code as it is compiled without a proof (about half a minute).'
printf '\n$ idedup format v --blocks 2048 --log 64; idedup serve v <<end of input\n'
printf '%s\n' "${first[@]}" 'end of input'
if ! at_once | (cd "$top/crates/server_rows" && rt try 2>"$scratch/tried"); then
    cat "$scratch/tried" >&2
    exit 1
fi
printf '\nNothing of that was proved. From here on it is the proved program, on files.\n'

idedup format v --blocks 2048 --log 64
printf '\n$ od of the root slot of v: its name, the version, the blocks, the log, and the inode index\n'
od -A d -t x1 -j 4096 -N 48 v
idedup format v --blocks 164 --log 64
idedup format absent/v
session "${first[@]}"
printf '\nA second session finds what the first one was told is done:\n'
session 'list /' 'list /My%20Photos' 'rename /My%20Photos/note /note' 'stat /note' 'remove /My%20Photos' 'read /note 0 5'
printf '\nThe volume is good, with the root directory of the format and a record for each change:\n'
idedup check v
printf '\nThe record of the write in the log:\n'
od -A d -t x1z -j $((9 * 4096)) -N 48 v
printf '\nAn image that is no volume:\n'
head -c 40960 /dev/zero >zeros
idedup serve zeros </dev/null
idedup check zeros
printf '\nA volume whose count of block 105 says 3, though no pointer leads there:\n'
cp v wrong
printf '\3' | dd of=wrong bs=1 seek=$((3 * 4096 + 4 * 105)) conv=notrunc status=none
idedup check wrong

printf '\nA server that is ended without warning in the middle of 1,000 new files, each with a line in it:\n'
idedup format w --blocks 8192 --log 4096
for i in $(seq 1000); do printf 'create /file%s\nwrite /file%s 0 5\nhello\n' "$i" "$i"; done >input
"$top/idedup" serve w <input >answers &
server=$!
until [ "$(wc -l <answers)" -ge 100 ]; do sleep 0.01; done
kill -9 "$server"
wait "$server" 2>/dev/null || true
acknowledged=$(grep -c '^ok$' answers)
for i in $(seq 1000); do echo "read /file$i 0 5"; done | "$top/idedup" serve w >again
created=$(grep -c '^data' again || true)
written=$(grep -c '^hello$' again || true)
printf '%s commands were acknowledged; %s files were there in the next session, %s of them written\n' "$acknowledged" "$created" "$written"
# The commands come in turn, a file and its bytes: so many of them are there, and at most one that wasn't acknowledged.
[ "$((created + written))" -ge "$acknowledged" ] || { echo 'a command was lost'; exit 1; }
[ "$((created + written))" -le $((acknowledged + 1)) ] || { echo 'more was there than was accepted'; exit 1; }
