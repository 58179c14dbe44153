#!/usr/bin/env bash
# Runs the program rnc-merge as its users do: words, files, standard input, statuses and standard error.
# Usage: tests/cli.sh [PROGRAM]   (without PROGRAM: crates/rnc_merge/out/rnc_merge)
# With CHECKED=1 in the environment, PROGRAM is one that was compiled with checks: it is slow, so the longest text is shorter, and it
# takes much memory and much of the stack, so the rows that leave it little are left out, which the last line says.
set -u

source "$(dirname "${BASH_SOURCE[0]}")/rows.sh" rnc_merge "$@"

left_out=0
checked=${CHECKED:-0}

# made FILE WORD..: keeps what the program writes for the words.
made() {
    local file=$1
    shift
    if "$program" "$@" <"$input" >"$file" 2>made.err; then pass; else fail "$*: $(head -1 made.err)"; fi
}

head_line='default namespace = ""\n'
schema="${head_line}start = doc\ndoc = element a { empty } | element b { text }\n"

# ---- modules and bundles
printf 'start = doc doc |= element b { text }' >a.rnc
printf 'doc |= element a { empty }' >b.rnc
printf 'abc' >t.rnc
printf 'start = text x = text' >first.rnc
printf 'x = empty' >second.rnc
printf 'include "lib" start = text' >main.rnc
printf 'y = text' >lib.rnc
printf '\377' >bytes.rnc
: >empty
mkdir folder

digest=ba7816bf8f01cfea414140de5dae2223b00361a396177a9cb410ff61f20015ad
printf 'rncset 1\nmodule t 7 3 %s\nabc\nend 1\n' $digest >t.wanted
made t.set pack t 7 t.rnc
same 'pack writes the bundle of one text' t.set t.wanted
input=t.rnc
made t.stdin pack t 7 -
input=/dev/null
same 'pack reads standard input' t.stdin t.wanted
row 'pack of an empty text' 0 "rncset 1\nmodule a 0 0 e3b0c44298fc1c149afbf4c8996fb92427ae41e4649b934ca495991b7852b855\n\nend 1\n" '' pack a 0 empty
row 'pack of a module named -' 0 "rncset 1\nmodule - 0 3 $digest\nabc\nend 1\n" '' pack - 0 t.rnc
row 'pack of the highest revision' 0 "rncset 1\nmodule t 18446744073709551615 3 $digest\nabc\nend 1\n" '' pack t 18446744073709551615 t.rnc
row 'withdraw' 0 'rncset 2\nwithdrawn lib 2\nend 1\n' '' withdraw lib 2

made a.set pack a 1 a.rnc
made b.set pack b 1 b.rnc
made ab.set join a.set b.set
made ba.set join b.set a.set a.set
same 'join does not look at order and repeats' ab.set ba.set
made again.set join ab.set
same 'join of one set is that set' again.set ab.set
input=b.set
made piped.set join a.set -
input=/dev/null
same 'join reads standard input' piped.set ab.set

row 'list' 0 "a 1 37 ff9c0158ac0f68afe6cc8c31a388b5270344fadf5fbe39430a1c92e45740a0c2\nb 1 26 c8052132aee1b663547f79343c3c9e4184e5caeef58ff3d674f4467934335491\n" '' list b.set a.set
row 'list of one text' 0 "t 7 3 $digest\n" '' list t.set
printf 'rncset 1\nend 0\n' >none.set
row 'list of the empty set' 0 '' '' list none.set
row 'join of the empty set' 0 'rncset 1\nend 0\n' '' join none.set none.set

# ---- schemas
row 'print of two bundles' 0 "$schema" '' print a.set b.set
row 'print in another order' 0 "$schema" '' print b.set a.set a.set
row 'print of the union' 0 "$schema" '' print ab.set
input=ab.set
row 'no words print standard input' 0 "$schema" ''
row 'print of standard input' 0 "$schema" '' print -
row 'standard input behind --' 0 "$schema" '' print -- -
input=/dev/null
cp ab.set ./-x
row 'a file behind --' 0 "$schema" '' print -- -x
row 'a file before --' 0 "$schema" '' print a.set -- b.set
row 'print of the empty set' 1 '' 'NoStart\n' print none.set
"$program" print ab.set >printed.rnc 2>/dev/null
made printed.set pack z 9 printed.rnc
row 'what is printed prints itself' 0 "$schema" '' print printed.set

# ---- refusals
made first.set pack a 1 first.rnc
made second.set pack b 1 second.rnc
made b2.set withdraw b 2
row 'two plain definitions' 1 '' 'PlainTwice x\n' print first.set second.set
row 'one of them withdrawn' 0 "${head_line}start = text\n" '' print first.set second.set b2.set
made main.set pack main 1 main.rnc
made lib.set pack lib 1 lib.rnc
made lib2.set withdraw lib 2
row 'an include' 0 "${head_line}start = text\n" '' print main.set lib.set
row 'an include of nothing' 1 '' 'Missing main "lib"\n' print main.set
row 'an include of what is withdrawn' 1 '' 'Missing main "lib"\n' print main.set lib.set lib2.set
made a1.set withdraw a 1
row 'a text and a withdrawal' 1 '' 'Conflict a 1\n' print first.set a1.set
row 'a withdrawal alone' 1 '' 'NoStart\n' print a1.set
made both.set join first.set a1.set
row 'list of a withdrawal' 0 "a 1 withdrawn\na 1 21 $(sha256sum <first.rnc | cut -d' ' -f1)\n" '' list both.set
made bytes.set pack a 1 bytes.rnc
row 'a text that is not UTF-8' 1 '' 'Encoding a\n' print bytes.set

# ---- check
row 'check of a good text' 0 '' '' check a.rnc
row 'check of the empty text' 0 '' '' check empty
row 'check of a bad text' 1 '' 'Syntax 3\n' check t.rnc
row 'check of bytes' 1 '' 'Encoding 0\n' check bytes.rnc
printf 'start = element a { , }' >comma.rnc
row 'check names the token' 1 '' 'Syntax 20\n' check comma.rnc
printf 'start = "\\x{22}"' >quote.rnc
row 'check of an escaped delimiter' 1 '' 'Lexical 8\n' check quote.rnc
printf 'start = element p:a { text }' >prefix.rnc
input=prefix.rnc
row 'check of standard input' 1 '' 'Prefix 16\n' check -
input=/dev/null

# ---- names and limits
row 'a name with a space' 1 '' 'BadName\n' pack 'a b' 0 t.rnc
row 'an empty name' 1 '' 'BadName\n' pack '' 0 t.rnc
row 'a withdrawal of an empty name' 1 '' 'BadName\n' withdraw '' 0
row 'a name of 201 bytes' 1 '' 'BadName\n' pack "$(printf 'n%.0s' {1..201})" 0 t.rnc
head -c 4194305 /dev/zero >long.rnc
row 'a text over 4 MiB' 1 '' 'TooLong\n' pack a 0 long.rnc
row 'a bad name comes first' 1 '' 'BadName\n' pack '' 0 long.rnc
truncate -s 268435457 large
row 'a file over 256 MiB' 3 '' 'large 1\n' print none.set large

# ---- unions
{ printf 'rncset 2\n' && printf 'withdrawn w%04d 0\n' {0..1023} && printf 'end 1024\n'; } >full.set
made union.set join full.set full.set
same 'a full set takes what it holds' union.set full.set
row 'a union of 1,025 contributions' 1 '' 'Full\n' join full.set b2.set
row 'a union that is full, and a file behind it' 1 '' 'Full\n' print full.set b2.set t.rnc
row 'a file before the one that makes the union full' 1 '' 'bundle 1 Magic\n' print full.set t.rnc b2.set

# ---- damaged bundles
head -c 8 t.set >short.set
row 'no first line' 1 '' 'bundle 0 Magic\n' print short.set
row 'no bundle at all' 1 '' 'bundle 1 Magic\n' join t.set t.rnc
row 'an empty bundle' 1 '' 'bundle 0 Magic\n' list empty
head -c 96 t.set >cut.set
row 'a bundle without its last byte' 1 '' 'bundle 0 Truncated\n' print cut.set
sed 's/ ba78/ ca78/' t.set >digest.set
row 'another digest' 1 '' 'bundle 0 Digest 0\n' join digest.set
sed 's/ t 7 / t 07 /' t.set >zero.set
row 'a leading zero' 1 '' 'bundle 0 Header 0\n' join zero.set
sed 's/end 1/end 2/' t.set >count.set
row 'another count' 1 '' 'bundle 0 Header 1\n' join count.set
{ cat t.set && printf '\n'; } >more.set
row 'a byte behind the end' 1 '' 'bundle 1 Trailing\n' list t.set more.set
printf 'rncset 1\nmodule b 7 3 %s\nabc\nmodule a 7 3 %s\nabc\nend 2\n' $digest $digest >order.set
row 'entries out of order' 1 '' 'bundle 0 Order 1\n' list order.set
printf 'rncset 1\nwithdrawn lib 2\nend 1\n' >one.set
row 'a withdrawal in version 1' 1 '' 'bundle 0 Header 0\n' list one.set
printf 'rncset 2\nend 0\n' >two.set
row 'no withdrawal in version 2' 1 '' 'bundle 0 Header 0\n' list two.set

# ---- files
row 'a missing file' 3 '' 'read 0\n' print gone
row 'a missing file behind others' 3 '' 'read 2\n' join a.set b.set gone
row 'files are read before bundles are' 3 '' 'read 1\n' print t.rnc gone
row 'files are read before names are' 3 '' 'read 0\n' pack '' 0 gone
row 'an empty path' 3 '' 'read 0\n' check ''
row 'a folder' 3 '' 'read 0\n' check folder
row 'a folder among bundles' 3 '' 'read 1\n' list t.set folder
if [ -w /dev/full ]; then
    for words in 'print ab.set' 'join ab.set' 'list ab.set' 'withdraw a 1' 'pack t 7 t.rnc'; do
        # shellcheck disable=SC2086
        "$program" $words >/dev/full 2>got.err </dev/null
        status=$?
        if [ "$status" -eq 3 ] && [ "$(cat got.err)" = write ]; then pass; else fail "$words to a full device: status $status"; fi
    done
    if "$program" check a.rnc >/dev/full 2>got.err </dev/null && [ ! -s got.err ]; then pass; else fail 'check writes nothing'; fi
fi

# ---- memory
printf '#!/usr/bin/env bash\nulimit -v 32768 && exec %q "$@"\n' "$program" >starved
chmod +x starved
members=590000
[ "$checked" -eq 0 ] || members=5900
{ printf 'start = text' && yes '| text' | head -n $members; } >choice.rnc
made choice.set pack a 1 choice.rnc
row 'a choice of many members' 0 "${head_line}start = text\n" '' print choice.set
whole=$program
program=./starved
starved_row() {
    if [ "$checked" -eq 0 ]; then row "$@"; else left_out=$((left_out + 1)); fi
}
starved_row 'two bundles in 32 MiB' 0 "$schema" '' print a.set b.set
starved_row 'too little memory for a schema' 3 '' 'Memory\n' print choice.set
starved_row 'a damaged bundle before memory runs out' 1 '' 'bundle 0 Digest 0\n' print digest.set choice.set
starved_row 'too little memory to check a text' 3 '' 'Memory\n' check choice.rnc
starved_row 'too little memory to read a file' 3 '' 'Memory\n' print large
program=$whole

# ---- usage
usage() {
    row "usage: $*" 2 '' 'usage\n' "$@"
}
usage print
usage join
usage list
usage check
usage pack a 0
usage withdraw a
usage zap
usage ''
usage -
usage --
usage -- print a.set
usage --help
usage -h
usage help
usage help print
usage --version
usage print --help
usage print -h
usage print -x
usage print a.set -x
usage print a.set --help
usage print --
usage check a.rnc b.rnc
usage pack a 0 t.rnc t.rnc
usage withdraw a 0 t.rnc
usage pack a -1 t.rnc
usage pack a x
usage -x print a.set
usage $'\377'
usage print $'\377'

rev() {
    row "usage: REV: $1" 2 '' 'usage: REV\n' pack a "$1" t.rnc
    row "usage: REV: $1" 2 '' 'usage: REV\n' withdraw a "$1"
}
rev 01
rev ''
rev +1
rev -
rev x
rev '1 '
rev 18446744073709551616
row 'a revision is tested before files are read' 2 '' 'usage: REV\n' pack '' 01 gone

row 'standard input twice' 2 '' 'usage: -\n' join - -
row 'standard input twice round --' 2 '' 'usage: -\n' print - -- gone -
row 'a second -- is a word' 3 '' 'read 1\n' print a.set -- --
row 'two words -- behind --' 3 '' 'read 0\n' print -- -- --help
row 'a name behind --' 0 'rncset 2\nwithdrawn -a 3\nend 1\n' '' withdraw -- -a 3

# ---- the stack: what 256 open brackets take of it
deep_texts
for file in deep-*.rnc; do
    made "$file.set" pack a 1 "$file"
    if [ "$checked" -eq 0 ]; then
        shallow "check $file" check "$file"
        shallow "print $file" print "$file.set"
    else
        left_out=$((left_out + 2))
    fi
done

[ "$left_out" -eq 0 ] || echo "left out: $left_out rows with too little memory or too small a stack, which a program compiled with checks can't have"
tell
