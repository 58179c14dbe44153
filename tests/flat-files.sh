#!/usr/bin/env bash
# Runs the program rnc-flat on folders that an enemy made, and where its output is in the way or it is stopped: links,
# pipes, modes of files, long names, full disks and signals. Usage: tests/flat-files.sh [PROGRAM]   (without PROGRAM: crates/rnc_flat/out/rnc_flat)
set -u

source "$(dirname "${BASH_SOURCE[0]}")/rows.sh" rnc_flat "$@"

# room NAME: a new folder, which the rows after it run in.
room() {
    mkdir -p "$work/rooms/$1"
    cd "$work/rooms/$1" || exit 2
}

# refused NAME STATUS SENTENCE LITERAL ARGUMENT..: in/m.rnc includes the literal, which is told at it; the arguments come before the file.
refused() {
    local name=$1 status=$2 sentence=$3 literal=$4
    shift 4
    printf 'include "%s"\nstart = text\n' "$literal" >in/m.rnc
    row "$name" "$status" '' "in/m.rnc:1:9: error: $sentence\n    include \"$literal\"\n            ^\n" "$@" in/m.rnc
}

# alone NAME FILE..: the folder has these files and no other.
alone() {
    local name=$1
    shift
    if [ "$(ls -A | sort | tr '\n' ' ')" = "$(printf '%s\n' "$@" | sort | tr '\n' ' ')" ]; then
        pass
    else
        fail "$name: $(ls -A | tr '\n' ' ')"
    fi
}

# mode NAME FILE MODE: the file has this mode.
mode() {
    if [ "$(stat -c %a "$2")" = "$3" ]; then pass; else fail "$1: $(stat -c %a "$2")"; fi
}

# included NAME LITERAL ARGUMENT..: in/m.rnc includes the literal, which defines x.
included() {
    local name=$1 literal=$2
    shift 2
    printf 'include "%s"\nstart = x\n' "$literal" >in/m.rnc
    row "$name" 0 'default namespace = ""\nstart = x\nx = text\n' '' "$@" in/m.rnc
}

outside='the file is not below the root folder'
schema='default namespace = ""\nstart = text\n'

# ---- links, with a root folder
room links
mkdir -p in/sub out/locked map
printf 'start = element a { , }\n' >out/there.rnc
: >out/locked/x.rnc
ln -s ../out in/out
ln -s ../out/there.rnc in/there.rnc
ln -s ../out/none.rnc in/broken.rnc
ln -s ../out/there.rnc in/deep
ln -s self.rnc in/self.rnc
ln -s /proc/self/fd/0 in/input.rnc
ln -s /proc/self/fd in/fd
ln -s /dev/null in/null.rnc
ln -s sub in/inner
ln -s ../out/there.rnc map/there.rnc
ln -s ../in/sub/x.rnc map/x.rnc
printf 'x = text\n' >in/sub/x.rnc
chmod 0 out/locked
# with a root folder each of these has one sentence and one status, whether something is there or not
for literal in ../out/there.rnc ../out/none.rnc ../out ../out/there.rnc/x ../out/locked/x.rnc ../out/locked /etc/passwd /etc/shadow/x /etc/nothing/x / \
    "$PWD/out/there.rnc" there.rnc broken.rnc out out/there.rnc out/none.rnc out/locked/x.rnc deep/x self.rnc input.rnc fd/0 fd/99 null.rnc /proc/self/fd/0 /dev/tty; do
    refused "out of the root: $literal" 1 "$outside" "$literal" --root in
done
printf 'include "input.rnc"\nstart = text\n' >in/m.rnc
if cat in/sub/x.rnc | "$program" --root in in/m.rnc >got.out 2>got.err; then fail 'a pipe by a link'; fi
if [ "$(head -1 got.err)" = "in/m.rnc:1:9: error: $outside" ]; then pass; else fail "a pipe by a link: $(head -1 got.err)"; fi
rm got.out got.err
# what lies below the root folder is told as it is
refused 'missing below the root' 3 'in/none.rnc: no such file' none.rnc --root in
refused 'missing below a folder of the root' 3 'in/sub/none.rnc: no such file' sub/none.rnc --root in
refused 'folder below the root' 3 'in/sub: this is a folder' sub --root in
# links may lead from place to place below the root, and from a map into it; without a root anywhere
included 'a link within the root' inner/x.rnc --root in
included 'a link from the map into the root' http://m/x.rnc --root in --map http://m/=map
printf 'x = text\n' >out/there.rnc
included 'a link from the map without a root' http://m/there.rnc --map http://m/=map
included 'a link without a root' there.rnc
# with a root a map finds what lies in its folder, which may be a link, or one file
ln -s map linked
printf 'x = text\n' >map/own.rnc
included 'what a map finds' http://m/own.rnc --root in --map http://m/=map
included 'a map to a link' http://m/own.rnc --root in --map http://m/=linked
included 'a map to a file' urn:m --root in --map urn:m=out/there.rnc
for literal in there.rnc broken.rnc out/none.rnc out/there.rnc; do
    ln -s ../out/none.rnc map/broken.rnc 2>/dev/null
    ln -sn ../out map/out 2>/dev/null
    refused "out of the map: $literal" 1 "$outside" "http://m/$literal" --root in --map http://m/=map
done
refused 'missing below the map' 3 'map/none.rnc: no such file; http://m/none.rnc leads there' http://m/none.rnc --root in --map http://m/=map
# a root folder that isn't there: nothing is read
row 'no root folder' 3 '' 'rnc-flat: error: none: no such file\n' --root none out/there.rnc
row 'an argument outside' 1 '' "rnc-flat: error: out/there.rnc: $outside\n" --root in out/there.rnc
chmod 700 out/locked

# ---- a file that is swapped, while the program runs, for a link to one outside: never a byte of that
if command -v python3 >/dev/null; then
    room race
    mkdir in out
    printf 'x = element secret { text }\n' >out/x.rnc
    printf 'x = text\n' >in/kept.rnc
    printf 'include "x.rnc"\nstart = x\n' >in/m.rnc
    ln in/kept.rnc in/x.rnc
    python3 -c '
import os
swaps = 0
while swaps < 1000 or not os.path.exists("stop"):
    os.symlink("../out/x.rnc", "in/new")
    os.rename("in/new", "in/x.rnc")
    os.link("in/kept.rnc", "in/new")
    os.rename("in/new", "in/x.rnc")
    swaps += 1
' &
    bad=0
    for n in $(seq 300); do
        "$program" --root in in/m.rnc >got.out 2>got.err
        case $? in
        0) grep -q -x 'x = text' got.out || bad=$((bad + 1)) ;;
        1) grep -q "$outside" got.err || bad=$((bad + 1)) ;;
        *) bad=$((bad + 1)) ;;
        esac
        if grep -q secret got.out got.err; then bad=$((bad + 1)); fi
    done
    : >stop
    wait
    if [ "$bad" -eq 0 ]; then pass; else fail "a file that is swapped: $bad of 300, $(tail -3 got.err)"; fi
fi

# ---- pipes, devices and sockets are refused where a reference leads to them, and are not opened
room special
mkdir in
mkfifo in/p.fifo
ln -s p.fifo in/link.fifo
special='this is not a regular file'
# what hangs is ended, and fails
printf '#!/bin/sh\nexec timeout 20 "%s" "$@"\n' "$program" >"$work/timed"
chmod +x "$work/timed"
untimed=$program
program=$work/timed
refused 'a pipe' 3 "in/p.fifo: $special" p.fifo
refused 'a pipe and a root' 3 "in/p.fifo: $special" p.fifo --root in
refused 'a pipe that a map finds' 3 "in/p.fifo: $special; http://m/p.fifo leads there" http://m/p.fifo --map http://m/=in
refused 'a link to a pipe' 3 "in/link.fifo: $special" link.fifo
refused 'a device' 3 "/dev/zero: $special" /dev/zero
refused 'a terminal' 3 "/dev/ptmx: $special" /dev/ptmx
if command -v python3 >/dev/null; then
    python3 -c 'import socket; socket.socket(socket.AF_UNIX).bind("in/s.sock")'
    refused 'a socket' 3 "in/s.sock: $special" s.sock
fi
printf 'start = text\n' >in/m.rnc
row 'a pipe as an argument' 0 "$schema" '' <(cat in/m.rnc)
cat in/m.rnc >in/p.fifo &
row 'a pipe by its name as an argument' 0 "$schema" '' in/p.fifo
wait
cat in/m.rnc >in/p.fifo &
row 'a pipe twice' 0 "$schema" '' in/p.fifo ./in/p.fifo
wait
program=$untimed

# ---- the output
room output
printf 'start = text\n' >a.rnc
printf 'include "a.rnc"\n' >b.rnc
ln -s a.rnc c.rnc
for had in 4755 2755 1644 6777; do
    echo old >flat.rnc
    chmod "$had" flat.rnc
    row "over a file of mode $had" 0 '' '' -o flat.rnc a.rnc
    mode "mode $had" flat.rnc "${had#?}"
done
name=$(printf 'n%.0s' $(seq 255))
row 'a name of 255 bytes' 0 '' '' -o "$name" a.rnc
row 'a name of 255 bytes once more' 0 '' '' -o "$name" a.rnc
if [ "$(cat "$name")" = "$(printf '%b' "$schema")" ]; then pass; else fail 'a name of 255 bytes'; fi
rm "$name" flat.rnc
# a file that is read is not written, by whatever path
for output in a.rnc ./a.rnc "$PWD/a.rnc" c.rnc; do
    cp a.rnc a.kept
    row "the output is read: $output" 2 '' "rnc-flat: error: $output is one of the files that are read\n" -o "$output" b.rnc
    same "the output is read: $output" a.rnc a.kept
    if [ -L c.rnc ]; then pass; else fail 'the link was replaced'; fi
    rm a.kept
done
ln a.rnc other.rnc
row 'another name of a file that is read' 0 '' '' -o other.rnc b.rnc
if [ "$(cat a.rnc)" = 'start = text' ] && [ "$(cat other.rnc)" = "$(printf '%b' "$schema")" ]; then pass; else fail 'another name of a file that is read'; fi
rm other.rnc
# a user who may not write the file, where the tests are run by root, who may
if [ "$(id -u)" -eq 0 ] && command -v setpriv >/dev/null; then
    as_user() { setpriv --reuid 65534 --regid 65534 --clear-groups "$@"; }
else
    as_user() { "$@"; }
fi
chmod 755 "$work" "$work/rooms" .
mkdir open
chmod 777 open
echo old >open/flat.rnc
chmod 444 open/flat.rnc
if as_user test -x "$program" && as_user test -r "$PWD/a.rnc"; then
    as_user "$program" -o open/flat.rnc a.rnc >got.out 2>got.err
    if [ $? -eq 3 ] && [ "$(cat got.err)" = "rnc-flat: error: open/flat.rnc can't be written: permission denied" ] && [ "$(cat open/flat.rnc)" = old ]; then pass; else fail "mode 444: $(cat got.err)"; fi
    printf 'include "closed.rnc"\n' >open/main.rnc
    echo 'start = text' >open/closed.rnc
    chmod 644 open/main.rnc
    chmod 000 open/closed.rnc
    as_user "$program" open/main.rnc >got.out 2>got.err
    if [ $? -eq 3 ] && [ "$(head -1 got.err)" = "open/main.rnc:1:9: error: open/closed.rnc: the file can't be read: permission denied" ]; then pass; else fail "mode 000: $(cat got.err)"; fi
fi
rm -rf open got.out got.err
# a text of a megabyte
{
    printf 'start = '
    for n in $(seq 20000); do printf 'element name-of-an-element-number-%d { text } |\n' "$n"; done
    echo 'empty'
} >large.rnc
# a full disk
if [ "$(id -u)" -eq 0 ] && mkdir disk && mount -t tmpfs -o size=64k none disk 2>/dev/null; then
    echo old >disk/flat.rnc
    row 'a full disk' 3 '' "rnc-flat: error: disk/flat.rnc can't be written: no space is left\n" -o disk/flat.rnc large.rnc
    if [ "$(ls -A disk)" = flat.rnc ] && [ "$(cat disk/flat.rnc)" = old ]; then pass; else fail "a full disk: $(ls -A disk)"; fi
    umount disk
fi
rm -rf disk
# what a kill leaves has the name that the manual page says, and the target is whole
"$program" large.rnc >"$work/whole"
echo old >"$work/old"
torn=0
for n in $(seq 20); do
    echo old >flat.rnc
    "$program" -o flat.rnc large.rnc &
    sleep "0.0$((n % 10))"
    kill -9 $! 2>/dev/null
    wait $! 2>/dev/null
    if ! cmp -s flat.rnc "$work/old" && ! cmp -s flat.rnc "$work/whole"; then torn=$((torn + 1)); fi
done 2>/dev/null
left=$(ls -A | grep -v -x -e '[abc].rnc' -e 'large.rnc' -e 'flat.rnc' | grep -v -x -E '\.rnc-flat-[0-9]+-[0-9]+\.new')
if [ -z "$left" ] && [ "$torn" -eq 0 ]; then pass; else fail "what a kill leaves: $torn torn, $left"; fi

# ---- the current folder is gone: what is named from the topmost folder is read
room gone
printf 'include "b.rnc"\nstart = text\n' >a.rnc
printf 'x = text\n' >b.rnc
here=$PWD
mkdir below
cd below && rmdir ../below
row 'a path from the topmost folder' 0 'default namespace = ""\nstart = text\n' '' "$here/a.rnc"
row 'a root folder from the topmost folder' 0 'default namespace = ""\nstart = text\n' '' --root "$here" "$here/a.rnc"
printf 'start = ^\n' >"$here/b.rnc"
row 'a message' 1 '' "$here/b.rnc:1:9: error: nothing that the compact syntax has begins like this\n    start = ^\n            ^\n" "$here/a.rnc"
row 'a path from the current folder' 3 '' 'rnc-flat: error: the current folder: no such file\n' a.rnc
row 'standard input' 3 '' 'rnc-flat: error: the current folder: no such file\n' -

cd "$work" || exit 2

tell
