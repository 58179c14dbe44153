#!/usr/bin/env bash
# Runs the program rnc-flat as its users do: words, folders of files, faults with their places, statuses and what is written.
# Usage: tests/flat.sh [PROGRAM]   (without PROGRAM: crates/rnc_flat/out/rnc_flat)
set -u

source "$(dirname "${BASH_SOURCE[0]}")/rows.sh" rnc_flat "$@"

# begins NAME STATUS STDERR WORD..: runs the program on the words: nothing is written, and standard error begins with this line.
begins() {
    local name=$1 status=$2 wanted=$3 got
    shift 3
    "$program" "$@" <"$input" >"$work/got.out" 2>"$work/got.err"
    got=$?
    if [ "$got" -eq "$status" ] && [ ! -s "$work/got.out" ] && [ "$(head -1 "$work/got.err")" = "$wanted" ]; then
        pass
    else
        fail "$name: status $got for $status: $(head -2 "$work/got.err")"
    fi
}

# bad NAME STATUS STDERR WORD..: a row in which nothing is written; and with -o before the words the answer is the same, the file that
# -o names stays as it was, and no other file is beside it.
bad() {
    local name=$1 status=$2 wanted=$3 got
    shift 3
    row "$name" "$status" '' "$wanted" "$@"
    rm -rf "$work/kept"
    mkdir "$work/kept"
    echo old >"$work/kept/flat.rnc"
    "$program" -o "$work/kept/flat.rnc" "$@" <"$input" >"$work/got.out" 2>"$work/got.err"
    got=$?
    if [ "$got" -eq "$status" ] && [ ! -s "$work/got.out" ] && cmp -s "$work/got.err" "$work/wanted.err" \
        && [ "$(ls -A "$work/kept")" = flat.rnc ] && [ "$(cat "$work/kept/flat.rnc")" = old ]; then
        pass
    else
        fail "$name, with -o: status $got for $status, $(ls -A "$work/kept")"
    fi
}

# holds NAME FILE TEXT: the file has these bytes, given with printf's escapes.
holds() {
    printf '%b' "$3" >"$work/wanted.out"
    if cmp -s "$2" "$work/wanted.out"; then
        pass
    else
        fail "$1: $2 has other bytes"
    fi
}

# alone NAME FILE..: the folder has these files and no other.
alone() {
    local name=$1
    shift
    if [ "$(ls -A | sort | tr '\n' ' ')" = "$(printf '%s\n' "$@" | sort | tr '\n' ' ')" ]; then
        pass
    else
        fail "$name: $(ls -A | tr '\n' ' ')"
    fi
}

# room NAME: a new folder, which the rows after it run in.
room() {
    mkdir -p "$work/rooms/$1"
    cd "$work/rooms/$1" || exit 2
}

# ---- words
room words
printf 'start = element a { empty }\n' >a.rnc
schema='default namespace = ""\nstart = element a { empty }\n'
hint="\n\nFor more information, try '--help'.\n"
row version 0 'rnc-flat 1.0\n' '' --version
row version_short 0 'rnc-flat 1.0\n' '' -V
if [ "$("$program" --help | grep -c -e '--rng  *Write the schema in the XML syntax')" = 1 ]; then pass; else fail help_rng; fi
if [ "$("$program" --help | grep -c -e '--check <FILE>' -e '--map <PREFIX=FOLDER>' -e '-o, --output <FILE>' -e '--root <FOLDER>' -e '--bundle' -e '--list' -e '--graph')" -ge 7 ]; then pass; else fail help; fi
begins no_words 2 'error: the following required arguments were not provided:'
begins unknown_option 2 "error: unexpected argument '--flat' found" --flat a.rnc
begins no_value 2 "error: a value is required for '--output <FILE>' but none was supplied" a.rnc -o
begins output_twice 2 "error: the argument '--output <FILE>' cannot be used multiple times" -o x -o y a.rnc
row check_and_bundle 2 '' "error: --check can't be given with --bundle$hint" --check x --bundle a.rnc
row check_and_list 2 '' "error: --check can't be given with --list$hint" --check x --list a.rnc
row check_and_graph 2 '' "error: --check can't be given with --graph$hint" --check x --graph a.rnc
row check_and_output 2 '' "error: --check can't be given with --output$hint" --check x -o y a.rnc
row bundle_and_list 2 '' "error: --bundle can't be given with --list$hint" --bundle --list a.rnc
row bundle_and_graph 2 '' "error: --bundle can't be given with --graph$hint" --bundle --graph a.rnc
row list_and_graph 2 '' "error: --list can't be given with --graph$hint" --list --graph a.rnc
row rng_and_bundle 2 '' "error: --rng can't be given with --bundle$hint" --rng --bundle a.rnc
row rng_and_list 2 '' "error: --rng can't be given with --list$hint" --list --rng a.rnc
row rng_and_graph 2 '' "error: --rng can't be given with --graph$hint" --rng --graph a.rnc
row rng_to_compact 2 '' "error: a file that ends in .rng holds the XML syntax, which --rng writes$hint" -o flat.rng a.rnc
row rng_checked_as_compact 2 '' "error: a file that ends in .rng holds the XML syntax, which --rng writes$hint" --check flat.rng a.rnc
row rng_for_bundle 2 '' "error: a file that ends in .rng holds the XML syntax, which --rng writes$hint" --bundle -o flat.rng a.rnc
row file_without_name 2 '' "error: a FILE needs a name$hint" ""
row map_without_folder 2 '' "error: the value of --map must be PREFIX=FOLDER$hint" --map http://x/ a.rnc
row map_without_prefix 2 '' "error: the value of --map must be PREFIX=FOLDER$hint" --map =x a.rnc
row map_to_nothing 2 '' "error: the value of --map must be PREFIX=FOLDER$hint" --map http://x/= a.rnc
row input_twice 2 '' "error: standard input can't be read twice$hint" - -
row input_checked 2 '' "error: standard input can't be read twice$hint" --check - -
alone words_write_nothing a.rnc

# ---- the schema
row one_file 0 "$schema" '' a.rnc
row output_is_standard 0 "$schema" '' -o - a.rnc
row named_twice 0 "$schema" '' a.rnc ./a.rnc
printf 'start = element b { empty }\n' >-
row dashed_name 0 'default namespace = ""\nstart = element b { empty }\n' '' ./-
input=a.rnc
row standard_input 0 "$schema" '' -
input=/dev/null

room folder
mkdir lib extensions
printf 'include "lib/name.rnc"\nstart = element doc { name }\n' >main.rnc
printf 'name = element name { text }\n' >lib/name.rnc
printf 'include "../lib/name.rnc"\nextra = name\nstart |= element audit { extra }\n' >extensions/audit.rnc
flat='default namespace = ""\nstart = element doc { name }\nname = element name { text }\n'
row includes 0 "$flat" '' main.rnc
row from_elsewhere 0 "$flat" '' ../folder/main.rnc
row absolute 0 "$flat" '' "$PWD/main.rnc"
row list 0 'lib/name.rnc lib/name.rnc\nmain.rnc main.rnc\n' '' --list main.rnc
row graph 0 'digraph schema {\n    rankdir=LR;\n    "main.rnc";\n    "lib/name.rnc";\n    "main.rnc" -> "lib/name.rnc";\n}\n' '' --graph main.rnc
digest() {
    printf '%b' "$1" | sha256sum | cut -d ' ' -f 1
}
main_text='include "lib/name.rnc"\nstart = element doc { name }\n'
name_text='name = element name { text }\n'
row bundle 0 "rncset 1\nmodule lib/name.rnc 1 29 $(digest "$name_text")\n$name_text\nmodule main.rnc 1 52 $(digest "$main_text")\n$main_text\nend 2\n" '' --bundle main.rnc
row root 0 'folder/lib/name.rnc lib/name.rnc\nfolder/main.rnc main.rnc\n' '' --root .. --list main.rnc
input=main.rnc
row input_includes 0 "$flat" '' -
input=/dev/null

# ---- what is written
room output
printf 'start = element a { empty }\n' >a.rnc
printf 'start = nothing\n' >bad.rnc
row output 0 '' '' -o flat.rnc a.rnc
holds output_bytes flat.rnc "$schema"
alone output_alone a.rnc bad.rnc flat.rnc
printf 'old\n' >flat.rnc
chmod 640 flat.rnc
begins output_refused 1 'bad.rnc:1:9: error: `nothing` is not defined' -o flat.rnc bad.rnc
holds output_untouched flat.rnc 'old\n'
row output_over 0 '' '' --output flat.rnc a.rnc
holds output_over_bytes flat.rnc "$schema"
if [ "$(stat -c %a flat.rnc)" = 640 ]; then pass; else fail "output_mode: $(stat -c %a flat.rnc)"; fi
mkdir target
printf 'old\n' >target/real.rnc
ln -s target/real.rnc link.rnc
row output_link 0 '' '' -o link.rnc a.rnc
holds output_link_bytes target/real.rnc "$schema"
if [ -L link.rnc ]; then pass; else fail 'output_link: the link is gone'; fi
row output_nowhere 3 '' "rnc-flat: error: none/flat.rnc can't be written: no such file or folder\n" -o none/flat.rnc a.rnc
row output_folder 3 '' "rnc-flat: error: target can't be written: this is a folder\n" -o target a.rnc
row output_device 0 '' '' -o /dev/null a.rnc
if [ -c /dev/null ]; then pass; else fail 'output_device: it is gone'; fi
ln -s nowhere.rnc loose.rnc
row output_loose_link 3 '' "rnc-flat: error: loose.rnc can't be written: no such file or folder\n" -o loose.rnc a.rnc
if [ -L loose.rnc ] && [ ! -e nowhere.rnc ]; then pass; else fail 'output_loose_link: it is gone, or was followed'; fi
ln -s /proc/self/fd/1 pipe
"$program" -o pipe a.rnc | cat >"$work/got.pipe"
if [ -L pipe ] && [ "$(cat "$work/got.pipe")" = "$(printf '%b' "$schema")" ]; then pass; else fail 'output_pipe'; fi
rm loose.rnc pipe
row input_pipe 0 "$schema" '' <(cat a.rnc)
alone output_leaves_nothing a.rnc bad.rnc flat.rnc link.rnc target
row output_list 0 '' '' --list -o list a.rnc
holds output_list_bytes list 'a.rnc a.rnc\n'
"$program" a.rnc >/dev/full 2>got.err
if [ $? -eq 3 ] && [ "$(cat got.err)" = "rnc-flat: error: standard output can't be written: no space is left" ]; then pass; else fail "output_full: $(cat got.err)"; fi

# ---- --check
room check
printf 'start = element a { empty }\n' >a.rnc
printf '%b' "$schema" >flat.rnc
row check_same 0 '' '' --check flat.rnc a.rnc
input=flat.rnc
row check_input 0 '' '' --check - a.rnc
input=/dev/null
printf 'default namespace = ""\nstart = element b { empty }\n' >other.rnc
row check_other 1 '' 'other.rnc:2:17: error: this is not the schema, which has here: start = element a { empty }\n    start = element b { empty }\n                    ^\nrnc-flat: error: lines of the file that the schema lacks: 1, lines of the schema that the file lacks: 1; -o other.rnc in place of --check other.rnc writes the schema\n' --check other.rnc a.rnc
printf 'default namespace = ""\n' >short.rnc
row check_short 1 '' 'short.rnc:2:1: error: this is not the schema, which has here: start = element a { empty }\nrnc-flat: error: lines of the file that the schema lacks: 0, lines of the schema that the file lacks: 1; -o short.rnc in place of --check short.rnc writes the schema\n' --check short.rnc a.rnc
printf '%bmore\n' "$schema" >long.rnc
row check_long 1 '' 'long.rnc:3:1: error: this is not the schema, which ends before this line\n    more\n    ^\nrnc-flat: error: lines of the file that the schema lacks: 1, lines of the schema that the file lacks: 0; -o long.rnc in place of --check long.rnc writes the schema\n' --check long.rnc a.rnc
: >empty.rnc
row check_empty 1 '' 'empty.rnc:1:1: error: this is not the schema, which has here: default namespace = ""\nrnc-flat: error: lines of the file that the schema lacks: 0, lines of the schema that the file lacks: 2; -o empty.rnc in place of --check empty.rnc writes the schema\n' --check empty.rnc a.rnc
printf 'default namespace = ""\r\nstart = element a { empty }\r\n' >dos.rnc
begins check_line_ends 1 'dos.rnc:1:23: error: this is not the schema, which has here: default namespace = ""' --check dos.rnc a.rnc
# the 216th character of a long line differs: 80 before it are shown, of the schema's line too
printf 'start = element %s { empty }\n' "$(printf 'n%.0s' $(seq 200))" >name.rnc
printf 'default namespace = ""\nstart = element %sm { empty }\n' "$(printf 'n%.0s' $(seq 199))" >far.rnc
front=$(printf 'n%.0s' $(seq 80))
row check_far 1 '' "far.rnc:2:216: error: this is not the schema, which has here: ${front}n { empty }\n    ${front}m { empty }\n    $(printf '%80s' '')^\nrnc-flat: error: lines of the file that the schema lacks: 1, lines of the schema that the file lacks: 1; -o far.rnc in place of --check far.rnc writes the schema\n" --check far.rnc name.rnc
# the second byte of a character differs: the place is where the character begins
printf 'start = element \303\251 { empty }\n' >acute.rnc
printf 'default namespace = ""\nstart = element \303\250 { empty }\n' >grave.rnc
row check_character 1 '' 'grave.rnc:2:17: error: this is not the schema, which has here: start = element \303\251 { empty }\n    start = element \303\250 { empty }\n                    ^\nrnc-flat: error: lines of the file that the schema lacks: 1, lines of the schema that the file lacks: 1; -o grave.rnc in place of --check grave.rnc writes the schema\n' --check grave.rnc acute.rnc
row check_missing 3 '' 'rnc-flat: error: none.rnc: no such file\n' --check none.rnc a.rnc
alone check_writes_nothing a.rnc flat.rnc other.rnc short.rnc long.rnc empty.rnc dos.rnc name.rnc far.rnc acute.rnc grave.rnc

# ---- the XML syntax
room xml
head='<?xml version="1.0" encoding="UTF-8"?>\n<grammar xmlns="http://relaxng.org/ns/structure/1.0" datatypeLibrary="http://www.w3.org/2001/XMLSchema-datatypes">\n'
printf 'namespace p = "u"\ninclude "b.rnc"\nstart = element p:a { element b { b }? }\n' >a.rnc
printf 'b = attribute c { xsd:int }, "<&>"\n' >b.rnc
xml="$head  <start>\n    <element name=\"a\" ns=\"u\">\n      <optional>\n        <element name=\"b\" ns=\"\">\n          <ref name=\"b\"/>\n        </element>\n      </optional>\n    </element>\n  </start>\n  <define name=\"b\">\n    <attribute name=\"c\">\n      <data type=\"int\"/>\n    </attribute>\n    <value>&lt;&amp;&gt;</value>\n  </define>\n</grammar>\n"
row rng 0 "$xml" '' --rng a.rnc
row rng_output 0 '' '' --rng -o flat.rng a.rnc
holds rng_output_bytes flat.rng "$xml"
row rng_check 0 '' '' --rng --check flat.rng a.rnc
row rng_any_ending 0 '' '' --rng -o flat.rng.part a.rnc
same rng_part flat.rng flat.rng.part
"$program" a.rnc >flat.rnc
input=flat.rnc
row rng_input 0 "$xml" '' --rng -
input=/dev/null
row rng_again 0 "$xml" '' --rng flat.rnc
sed 's/int/integer/' flat.rng >other.rng
row rng_check_other 1 '' 'other.rng:14:22: error: this is not the schema, which has here:       <data type="int"/>\n          <data type="integer"/>\n                         ^\nrnc-flat: error: lines of the file that the schema lacks: 1, lines of the schema that the file lacks: 1; -o other.rng in place of --check other.rng writes the schema\n' --rng --check other.rng a.rnc
row rng_check_compact 1 '' 'flat.rnc:1:1: error: this is not the schema, which has here: <?xml version="1.0" encoding="UTF-8"?>\n    default namespace = ""\n    ^\nrnc-flat: error: lines of the file that the schema lacks: 4, lines of the schema that the file lacks: 18; -o flat.rnc in place of --check flat.rnc writes the schema\n' --rng --check flat.rnc a.rnc
row rng_missing 3 '' 'rnc-flat: error: none.rnc: no such file\n' --rng none.rnc
printf 'start = x\n' >undefined.rnc
row rng_refused 1 '' 'undefined.rnc:1:9: error: `x` is not defined\n    start = x\n            ^\n' --rng undefined.rnc
{
    printf 'namespace p = "'
    head -c 1000000 /dev/zero | tr '\0' u
    printf '"\nstart = empty\n'
    for number in $(seq 70); do
        printf '| element p:x%d { empty }\n' "$number"
    done
} >long.rnc
row rng_long 1 '' 'rnc-flat: error: the flat schema would have more than 67,108,864 bytes in the XML syntax\n' --rng long.rnc
row rng_long_output 1 '' 'rnc-flat: error: the flat schema would have more than 67,108,864 bytes in the XML syntax\n' --rng -o long.rng long.rnc
alone rng_writes_no_more a.rnc b.rnc flat.rng flat.rng.part flat.rnc other.rng undefined.rnc long.rnc


# ---- files in the XML syntax
room read-xml
rng='xmlns="http://relaxng.org/ns/structure/1.0"'
xsd='datatypeLibrary="http://www.w3.org/2001/XMLSchema-datatypes"'
printf 'include "b.rng"\nstart = element a { b, external "c.rng" }\n' >a.rnc
printf '<grammar %s>\n  <define name="b" combine="choice"><element name="b" ns="u"><data type="int" %s/></element></define>\n  <include href="d.rnc"/>\n</grammar>\n' "$rng" "$xsd" >b.rng
printf '<element %s name="c"><optional><attribute name="d"/></optional><text/></element>\n' "$rng" >c.rng
printf 'b |= element e { empty }\n' >d.rnc
printf 'namespace u = "u"\nstart = element a { (element u:b { xsd:int } | element e { empty }), element c { attribute d { text }?, text } }\n' >flat.rnc
"$program" flat.rnc >flat.out
"$program" --rng flat.rnc >flat.rng
row read_what_was_written 0 "$(cat flat.out)\n" '' flat.rng
row read_what_was_written_as_xml 0 "$(cat flat.rng)\n" '' --rng flat.rng
input=flat.rng
row read_xml_input 0 "$(cat flat.out)\n" '' -
input=/dev/null
cp flat.rng other.name
row read_xml_of_any_name 0 "$(cat flat.out)\n" '' other.name
{ printf '\357\273\277 \n'; sed 1d flat.rng; } >mark.rng
row read_xml_behind_a_mark 0 "$(cat flat.out)\n" '' mark.rng
sed 's/UTF-8/UTF-16/' flat.rng | python3 -c 'import sys; sys.stdout.buffer.write(sys.stdin.read().encode("utf-16"))' >wide.rng
row read_xml_of_utf_16 0 "$(cat flat.out)\n" '' wide.rng
printf '<?xml version="1.0" encoding="ISO-8859-1"?>\n<element %s name="\351"><text/></element>\n' "$rng" >latin.rng
printf 'start = element \303\251 { text }\n' >latin.rnc
"$program" latin.rnc >latin.out
row read_xml_of_latin_1 0 "$(cat latin.out)\n" '' latin.rng
# the same files in the compact syntax, under the same names
mkdir twins
cp a.rnc d.rnc twins
printf 'namespace u = "u" b |= element u:b { xsd:int } include "d.rnc"\n' >twins/b.rng
printf 'element c { attribute d { text }?, text }\n' >twins/c.rng
"$program" a.rnc >mixed.out
"$program" twins/a.rnc >twins.out
same read_mixed mixed.out twins.out
(cd twins && "$program" --list a.rnc) >twins.list
"$program" --list a.rnc >mixed.list
same read_mixed_list mixed.list twins.list
printf '<grammar %s ns="u"><start><element name="a"><text/></element></start></grammar>\n' "$rng" >one.rng
mkdir packed
printf 'default namespace = "u"\nstart = element a { text }\n' >packed/one.rng
"$program" --bundle one.rng >one.set
"$program" --bundle packed/one.rng >packed.set
same read_bundle one.set packed.set
printf '<grammar %s>\n  <start><ref name="x"/></start>\n</grammar>\n' "$rng" >undefined.rng
bad read_undefined 1 'undefined.rng:2:21: error: `x` is not defined\n      <start><ref name="x"/></start>\n                        ^\n' undefined.rng
printf '<grammar %s>\n  <start><foo/></start>\n</grammar>\n' "$rng" >element.rng
bad read_element 1 'element.rng:2:10: error: `foo` is no element of RELAX NG\n      <start><foo/></start>\n             ^\n' element.rng
printf '<grammar %s>\n  <include href="none.rng"/>\n</grammar>\n' "$rng" >missing.rng
bad read_missing 3 'missing.rng:2:18: error: none.rng: no such file\n      <include href="none.rng"/>\n                     ^\n' missing.rng
printf '<html/>\n' >html.rng
bad read_html 1 'html.rng:1:1: error: this is no RELAX NG schema: its root is `html` of the namespace ""\n    <html/>\n    ^\n' html.rng
printf '<grammar %s>\n  <start combine="choice"><text/></start>\n  <start combine="interleave"><text/></start>\n</grammar>\n' "$rng" >methods.rng
bad read_methods 1 'methods.rng:2:3: error: `start` is combined by choice here, and by interleave in methods.rng:3:3\n      <start combine="choice"><text/></start>\n      ^\n' methods.rng
printf '<grammar %s>\n  <start>\n    <data type="foo"/>\n  </start>\n</grammar>\n' "$rng" >builtin.rng
bad read_builtin 1 'builtin.rng:3:17: error: without a datatype library there are only `string` and `token`, without parameters\n        <data type="foo"/>\n                    ^\n' builtin.rng

# ---- maps
room maps
mkdir -p local/deep other
printf 'include "http://example.org/schema/name.rnc"\nstart = name\n' >main.rnc
printf 'include "deep/text.rnc"\nname = element name { t }\n' >local/name.rnc
printf 't = text\n' >local/deep/text.rnc
printf 't = empty\n' >other/text.rnc
mapped='default namespace = ""\nstart = name\nname = element name { t }\nt = text\n'
row map 0 "$mapped" '' --map http://example.org/schema/=local main.rnc
row map_without_slash 0 "$mapped" '' --map http://example.org/schema=local main.rnc
row map_longest 0 'default namespace = ""\nstart = name\nname = element name { empty }\n' '' \
    --map http://example.org/schema/=local --map http://example.org/schema/deep/=other main.rnc
row map_names 0 'http://example.org/schema/deep/text.rnc local/deep/text.rnc\nhttp://example.org/schema/name.rnc local/name.rnc\nmain.rnc main.rnc\n' '' \
    --list --map http://example.org/schema/=local main.rnc
row no_map 1 '' 'main.rnc:1:9: error: no --map or --catalog says where http://example.org/schema/name.rnc lies\n    include "http://example.org/schema/name.rnc"\n            ^\n' main.rnc

# A prefix is any front of a URI, with what comes behind it below the folder; the last `=` ends it. What a file at a URN refers to is
# looked for beside the file.
room prefixes
mkdir -p lib
printf 'include "urn:x:lib:name.rnc"\nstart = name\n' >main.rnc
printf 'include "text.rnc"\nname = element name { t }\n' >lib/name.rnc
printf 't = text\n' >lib/text.rnc
printf 'include "http://example.org/v=1/name.rnc"\nstart = name\n' >equals.rnc
row map_urn 0 "$mapped" '' --map urn:x:lib:=lib main.rnc
row map_front 0 "$mapped" '' --map urn:x:l=none --map urn:x:lib:=lib/ main.rnc
row map_urn_names 0 'lib/text.rnc lib/text.rnc\nmain.rnc main.rnc\nurn:x:lib:name.rnc lib/name.rnc\n' '' --list --map urn:x:lib:=lib main.rnc
row map_equals 0 "$mapped" '' --map http://example.org/v=1/=lib equals.rnc
printf 'include "urn:x:lib:../name.rnc"\nstart = name\n' >above.rnc
printf 'include "urn:x:lib:.."\nstart = name\n' >dots.rnc
bad map_above 1 'dots.rnc:1:9: error: `..` leads above the topmost folder\n    include "urn:x:lib:.."\n            ^\n' --map urn:x:lib:=lib dots.rnc
bad map_above_urn 1 'above.rnc:1:9: error: `..` leads above the topmost folder\n    include "urn:x:lib:../name.rnc"\n            ^\n' --map urn:x:lib:=lib above.rnc
bad map_missing 3 'main.rnc:1:9: error: none/name.rnc: no such file; urn:x:lib:name.rnc leads there\n    include "urn:x:lib:name.rnc"\n            ^\n' --map urn:x:lib:=none main.rnc

# ---- catalogs: OASIS XML Catalogs 1.1, sections 6 and 7
room catalogs
# catalog FILE ENTRIES: a catalog of these entries, given with printf's escapes
catalog() {
    printf '<catalog xmlns="urn:oasis:names:tc:entity:xmlns:xml:catalog">%b</catalog>\n' "$2" >"$1"
}
# found NAME ENTRIES: main.rnc prints by a catalog of these entries
found() {
    catalog "$1.xml" "$2"
    row "catalog_$1" 0 "$mapped" '' --catalog "$1.xml" main.rnc
}
mkdir -p lib other
printf 'include "urn:x:lib:name.rnc"\nstart = name\n' >main.rnc
printf 'include "text.rnc"\nname = element name { t }\n' >lib/name.rnc
printf 't = text\n' >lib/text.rnc
printf 'name = element name { empty }\n' >other/name.rnc
uri='<uri name="urn:x:lib:name.rnc" uri="lib/name.rnc"/>'
wrong='uri="other/name.rnc"/>'
found uri "$uri"
found rewrite '<rewriteURI uriStartString="urn:x:lib:" rewritePrefix="lib/"/>'
found suffix '<uriSuffix uriSuffix=":name.rnc" uri="lib/name.rnc"/>'
found system '<system systemId="urn:x:lib:name.rnc" uri="lib/name.rnc"/>'
found rewrite_system '<rewriteSystem systemIdStartString="urn:x:lib:" rewritePrefix="lib/"/>'
found suffix_system '<systemSuffix systemIdSuffix=":name.rnc" uri="lib/name.rnc"/>'
found stem '<rewriteURI uriStartString="urn:x:lib:na" rewritePrefix="lib/na"/>'
found first "$uri<uri name=\"urn:x:lib:name.rnc\" $wrong"
found longest '<rewriteURI uriStartString="urn:x:" rewritePrefix="other/"/><rewriteURI uriStartString="urn:x:lib:" rewritePrefix="lib/"/><rewriteURI uriStartString="urn:x" rewritePrefix="none/"/>'
found whole_first '<rewriteURI uriStartString="urn:x:lib:" rewritePrefix="other/"/>'"$uri"
found front_first '<uriSuffix uriSuffix=":name.rnc" '"$wrong"'<rewriteURI uriStartString="urn:x:lib:" rewritePrefix="lib/"/>'
found uri_first '<system systemId="urn:x:lib:name.rnc" '"$wrong"'<uriSuffix uriSuffix="name.rnc" uri="lib/name.rnc"/>'
found public '<public publicId="urn:x:lib:name.rnc" '"$wrong<delegatePublic publicIdStartString=\"urn:\" catalog=\"none.xml\"/>$uri"
found base '<group xml:base="lib/" prefer="system"><uri name="urn:x:lib:name.rnc" uri="name.rnc"/></group>'
found bases '<group xml:base="other/"><uri xml:base="../lib/" name="urn:x:lib:name.rnc" uri="name.rnc"/></group>'
found escapes '<uri name="urn:x:lib:name.rnc" uri="lib/%6eame.rnc"/>'
found other '<x:uri xmlns:x="urn:x" name="urn:x:lib:name.rnc" '"$wrong$uri"
catalog lib/next.xml '<uri name="urn:x:lib:name.rnc" uri="name.rnc"/>'
catalog lib/wrong.xml '<uri name="urn:x:lib:name.rnc" uri="../other/name.rnc"/>'
found next '<nextCatalog catalog="lib/next.xml"/><nextCatalog catalog="lib/wrong.xml"/>'
found next_last '<nextCatalog catalog="lib/wrong.xml"/>'"$uri"
found next_again '<nextCatalog catalog="lib/next.xml"/><nextCatalog catalog="lib/next.xml"/>'
row catalog_order 0 "$mapped" '' --catalog uri.xml --catalog lib/wrong.xml main.rnc
row catalog_behind_another 0 "$mapped" '' --catalog suffix.xml --catalog lib/wrong.xml main.rnc
row catalog_behind_maps 0 'default namespace = ""\nstart = name\nname = element name { empty }\n' '' --map urn:x:lib:=other --catalog uri.xml main.rnc
printf 'include "name.rnc"\nstart = name\n' >written.rnc
catalog written.xml '<uri name="name.rnc" uri="lib/name.rnc"/>'
row catalog_as_written 0 "$mapped" '' --catalog written.xml written.rnc
{
    printf '<?xml version="1.0"?>\n<!DOCTYPE catalog PUBLIC "-//OASIS//DTD Entity Resolution XML Catalog V1.0//EN"\n  "http://www.oasis-open.org/committees/entity/release/1.0/catalog.dtd">\n'
    cat uri.xml
} >doctype.xml
row catalog_doctype 0 "$mapped" '' --catalog doctype.xml main.rnc
row catalog_root 0 "$mapped" '' --root . --catalog uri.xml main.rnc

printf 'include "urn:x:a"\ninclude "urn:y:b"\nstart = text\n' >uses.rnc
catalog elsewhere.xml '<uri name="urn:x:a" uri="http://h/a"/><delegateURI uriStartString="urn:y:" catalog="d.xml"/>'
bad catalog_elsewhere 1 "uses.rnc:1:9: error: a catalog leads from urn:x:a to http://h/a, and nothing is fetched\n    include \"urn:x:a\"\n            ^\nuses.rnc:2:9: error: a catalog leaves urn:y:b to file://$PWD/d.xml, which must be given by --catalog\n    include \"urn:y:b\"\n            ^\n" \
    --catalog elsewhere.xml uses.rnc
catalog missing.xml '<uri name="urn:x:lib:name.rnc" uri="none.rnc"/>'
bad catalog_missing_file 3 'main.rnc:1:9: error: none.rnc: no such file; urn:x:lib:name.rnc leads there\n    include "urn:x:lib:name.rnc"\n            ^\n' --catalog missing.xml main.rnc
bad catalog_missing 3 'rnc-flat: error: none.xml: no such file\n' --catalog none.xml main.rnc
mkfifo pipe.xml
bad catalog_pipe 3 'rnc-flat: error: pipe.xml: this is not a regular file\n' --catalog pipe.xml main.rnc
bad catalog_device 3 'rnc-flat: error: /dev/zero: this is not a regular file\n' --catalog /dev/zero main.rnc
printf '<catalog xmlns="urn:oasis:names:tc:entity:xmlns:xml:catalog">\n  <nextCatalog catalog="none.xml"/>\n</catalog>\n' >next-missing.xml
bad catalog_next_missing 3 'next-missing.xml:2:25: error: none.xml: no such file\n      <nextCatalog catalog="none.xml"/>\n                            ^\n' --catalog next-missing.xml main.rnc
printf '<catalog xmlns="urn:oasis:names:tc:entity:xmlns:xml:catalog">\n  <nextCatalog catalog="../loop.xml"/>\n</catalog>\n' >lib/loop.xml
catalog loop.xml '<nextCatalog catalog="lib/loop.xml"/>'
bad catalog_loop 1 'lib/loop.xml:2:25: error: the catalog leads back to itself by nextCatalog\n      <nextCatalog catalog="../loop.xml"/>\n                            ^\n' --catalog loop.xml main.rnc
printf '<catalog xmlns="urn:oasis:names:tc:entity:xmlns:xml:catalog">\n  <nextCatalog catalog="http://h/c.xml"/>\n</catalog>\n' >far.xml
bad catalog_far 1 'far.xml:2:25: error: the catalog http://h/c.xml is no file, and nothing is fetched\n      <nextCatalog catalog="http://h/c.xml"/>\n                            ^\n' --catalog far.xml main.rnc
printf '<html/>\n' >html.xml
bad catalog_html 1 'html.xml:1:1: error: this is no catalog: its root is not `catalog` of the namespace urn:oasis:names:tc:entity:xmlns:xml:catalog\n    <html/>\n    ^\n' --catalog html.xml main.rnc
printf '<catalog xmlns="urn:oasis:names:tc:entity:xmlns:xml:catalog">\n  <rewriteUri/>\n</catalog>\n' >element.xml
bad catalog_element 1 'element.xml:2:3: error: this is no element of a catalog, or not here\n      <rewriteUri/>\n      ^\n' --catalog element.xml main.rnc
printf '<catalog xmlns="urn:oasis:names:tc:entity:xmlns:xml:catalog">\n  <uri name="urn:x"/>\n</catalog>\n' >attribute.xml
bad catalog_attribute 1 'attribute.xml:2:3: error: the attribute `uri` is missing\n      <uri name="urn:x"/>\n      ^\n' --catalog attribute.xml main.rnc
printf '<!DOCTYPE catalog [\n]>\n<catalog/>\n' >subset.xml
begins catalog_subset 1 'subset.xml:1:1: error: a document type declaration is not read' --catalog subset.xml main.rnc
printf '<catalog xmlns="urn:oasis:names:tc:entity:xmlns:xml:catalog">\n</a>\n' >open.xml
begins catalog_open 1 'open.xml:2:1: error: this closes a, but catalog is open' --catalog open.xml main.rnc

# ---- the whole language
room language
printf 'start = element doc { external "address.rnc" }\n' >external.rnc
printf 'start = element address { street }\nstreet = element street { text }\n' >address.rnc
printf 'element note { text }\n' >note.rnc
printf 'start = element doc { external "note.rnc" }\n' >pattern.rnc
printf 'start = element doc { grammar { start = element in { parent out } } }\nout = text\n' >nested.rnc
# The printed schemas are compared with jing's simplified form in tests/real-schemas; here only that they print.
for file in external.rnc note.rnc pattern.rnc nested.rnc; do
    if "$program" "$file" >got.out 2>got.err && grep -q '^start = ' got.out; then pass; else fail "language $file: $(head -1 got.err)"; fi
done
row pattern_root 0 'default namespace = ""\nstart = element note { text }\n' '' note.rnc
row graph_external 0 'digraph schema {\n    rankdir=LR;\n    "pattern.rnc";\n    "note.rnc";\n    "pattern.rnc" -> "note.rnc" [style=dashed];\n}\n' '' --graph pattern.rnc

printf 'start = element doc { external "faulty.rnc" }\n' >own.rnc
printf 'start = element a { missing }\n' >faulty.rnc
row own_undefined 1 '' 'faulty.rnc:1:21: error: `missing` is not defined\n    start = element a { missing }\n                        ^\n' own.rnc
printf 'start = element a {\n  grammar { start = element b { c } c = text c = empty }\n}\nc = text\n' >own-twice.rnc
row own_twice 1 '' 'own-twice.rnc:2:37: error: `c` is defined here and in own-twice.rnc:2:46, neither with |= nor &=\n      grammar { start = element b { c } c = text c = empty }\n                                        ^\n' own-twice.rnc
printf 'start = element doc { external "circle.rnc" }\n' >own-loop.rnc
printf 'start = one?\none = two\ntwo = one+\n' >circle.rnc
row own_recursive 1 '' 'circle.rnc:2:1: error: `one` refers to itself outside elements: by `two` in circle.rnc:3:1\n    one = two\n    ^\n' own-loop.rnc

# What is made of files has names of its own: messages have the paths of the files. A file in two scopes is told once.
printf 'start = element doc { external "override.rnc" }\n' >own-override.rnc
printf 'include "a%%20b.rnc" {\n  other = empty\n}\nstart = element in { name }\n' >override.rnc
printf 'name = text\n' >'a b.rnc'
row own_override 1 '' 'override.rnc:2:3: error: `other` replaces nothing: a b.rnc, which is included in override.rnc:1:9, does not define it\n      other = empty\n      ^\n' own-override.rnc
row override_root 1 '' 'override.rnc:2:3: error: `other` replaces nothing: a b.rnc, which is included in override.rnc:1:9, does not define it\n      other = empty\n      ^\n' --root .. override.rnc
# twice FILE: a schema that places the file in two scopes
twice() {
    printf 'namespace one = "urn:one"\nnamespace two = "urn:two"\nstart = element doc { external "%s" inherit = one, external "%s" inherit = two }\n' "$1" "$1"
}
twice faulty.rnc >scopes.rnc
row scopes_undefined 1 '' 'faulty.rnc:1:21: error: `missing` is not defined\n    start = element a { missing }\n                        ^\n' scopes.rnc
twice override.rnc >scopes.rnc
row scopes_override 1 '' 'override.rnc:2:3: error: `other` replaces nothing: a b.rnc, which is included in override.rnc:1:9, does not define it\n      other = empty\n      ^\n' scopes.rnc
printf 'start = c\nc = text\nc = empty\nd |= text\nd &= empty\n' >double.rnc
twice double.rnc >scopes.rnc
row scopes_twice 1 '' 'double.rnc:2:1: error: `c` is defined here and in double.rnc:3:1, neither with |= nor &=\n    c = text\n    ^\ndouble.rnc:4:1: error: `d` is combined by |= here, and by &= in double.rnc:5:1\n    d |= text\n    ^\n' scopes.rnc
{
    echo 'start = text'
    for n in $(seq 10 34); do echo "d$n = u$n"; done
} >several.rnc
twice several.rnc >scopes.rnc
several=
for n in $(seq 10 29); do several="${several}several.rnc:$((n - 8)):7: error: \`u$n\` is not defined\n    d$n = u$n\n          ^\n"; done
row scopes_many 1 '' "${several}rnc-flat: note: there are more faults, which are not told: 5\n" scopes.rnc

# ---- paths: from the current folder, or all from the topmost one where that is what the words say
room paths
mkdir -p schema/lib build/deep
printf 'include "lib/name.rnc"\ninclude "lib/more.rnc"\nstart = name\n' >schema/main.rnc
printf 'name = text, other\n' >schema/lib/name.rnc
printf 'more |= element more { empty }\nmore &= empty\n' >schema/lib/more.rnc
shown() {
    printf '%smore.rnc:1:1: error: `more` is combined by |= here, and by &= in %smore.rnc:2:1\n    more |= element more { empty }\n    ^\n' "$1" "$1"
    printf '%sname.rnc:1:14: error: `other` is not defined\n    name = text, other\n                 ^\n' "$1"
}
here=$PWD
row paths_below 1 '' "$(shown schema/lib/)\n" schema/main.rnc
cd build/deep || exit 2
row paths_beside 1 '' "$(shown ../../schema/lib/)\n" ../../schema/main.rnc
row paths_absolute 1 '' "$(shown "$here/schema/lib/")\n" "$here/schema/main.rnc"
row paths_listed 0 'lib/more.rnc ../../schema/lib/more.rnc\nlib/name.rnc ../../schema/lib/name.rnc\nmain.rnc ../../schema/main.rnc\n' '' --list ../../schema/main.rnc
row paths_listed_absolute 0 "lib/more.rnc $here/schema/lib/more.rnc\nlib/name.rnc $here/schema/lib/name.rnc\nmain.rnc $here/schema/main.rnc\n" '' \
    --list "$here/schema/main.rnc"
cd / || exit 2
row paths_from_the_top 0 "lib/more.rnc ${here#/}/schema/lib/more.rnc\nlib/name.rnc ${here#/}/schema/lib/name.rnc\nmain.rnc ${here#/}/schema/main.rnc\n" '' \
    --list "${here#/}/schema/main.rnc"
cd "$here/schema" || exit 2
row paths_in_folder 1 '' "$(shown lib/)\n" main.rnc
# ---- a refusal of each kind, with its places
room sentences
mkdir extensions
printf 'start = element doc { name }\n\n        name = text\n' >main.rnc
printf '# audit\n\nname = empty\n' >extensions/audit.rnc
row plain_twice 1 '' 'extensions/audit.rnc:3:1: error: `name` is defined here and in main.rnc:3:9, neither with |= nor &=\n    name = empty\n    ^\n' main.rnc extensions/audit.rnc
printf 'start = element doc { name }\nname = empty\nname = text\n' >twice.rnc
row plain_twice_one_file 1 '' 'twice.rnc:2:1: error: `name` is defined here and in twice.rnc:3:1, neither with |= nor &=\n    name = empty\n    ^\n' twice.rnc
printf 'include "b.rnc"\ninclude "c.rnc"\nstart = element doc { name }\n' >a.rnc
printf 'include "common.rnc"\n' >b.rnc
printf '\n  include "common.rnc"\n' >c.rnc
printf 'name = text\n' >common.rnc
row comes_twice 1 '' 'common.rnc:1:1: error: `name` is defined here with =, and comes twice: by the includes in b.rnc:1:9 and in c.rnc:2:11\n    name = text\n    ^\n' a.rnc
printf 'start = element doc { name }\nstart = element other { text }\nname = text\n' >starts.rnc
row start_twice 1 '' 'starts.rnc:1:1: error: `start` is defined here and in starts.rnc:2:1, neither with |= nor &=\n    start = element doc { name }\n    ^\n' starts.rnc
printf 'start = element doc { name }\nname |= text\nname &= empty\n' >mixed.rnc
row mixed_methods 1 '' 'mixed.rnc:2:1: error: `name` is combined by |= here, and by &= in mixed.rnc:3:1\n    name |= text\n    ^\n' mixed.rnc
printf 'include "common.rnc" {\n  other = empty\n}\nstart = element doc { name }\n' >override.rnc
row override 1 '' 'override.rnc:2:3: error: `other` replaces nothing: common.rnc, which is included in override.rnc:1:9, does not define it\n      other = empty\n      ^\n' override.rnc
printf 'include "common.rnc" {\n  nmes = empty\n  names = empty\n}\nstart = element doc { name }\n' >override.rnc
row override_near 1 '' 'override.rnc:3:3: error: `names` replaces nothing: common.rnc, which is included in override.rnc:1:9, does not define it: did you mean `name`?\n      names = empty\n      ^\noverride.rnc:2:3: error: `nmes` replaces nothing: common.rnc, which is included in override.rnc:1:9, does not define it\n      nmes = empty\n      ^\n' override.rnc
printf 'start = element doc { name? }\n' >undefined.rnc
row undefined 1 '' 'undefined.rnc:1:23: error: `name` is not defined\n    start = element doc { name? }\n                          ^\n' undefined.rnc
printf 'include "uses.rnc"\nstart = element doc { text }\n' >reach.rnc
printf 'unused = \\list\n' >uses.rnc
row undefined_out_of_reach 1 '' 'uses.rnc:1:10: error: `list` is not defined\n    unused = \\list\n             ^\n' reach.rnc
printf 'start = one\none = attribute a { text }, two?\ntwo = element b { one } | three\nthree = one\n' >loop.rnc
row recursive 1 '' 'loop.rnc:2:1: error: `one` refers to itself outside elements: by `two` in loop.rnc:3:1, then `three` in loop.rnc:4:1\n    one = attribute a { text }, two?\n    ^\n' loop.rnc
{
    printf 'start = n01\n'
    for n in $(seq 1 24); do printf 'n%02d = n%02d\n' "$n" $((n + 1)); done
    printf 'n25 = n01\n'
} >chain.rnc
chain='chain.rnc:2:1: error: `n01` refers to itself outside elements: by `n02` in chain.rnc:3:1'
for n in $(seq 3 20); do chain="$chain, then \`n$(printf %02d "$n")\` in chain.rnc:$((n + 1)):1"; done
row recursive_long 1 '' "$chain, then 5 more\n    n01 = n02\n    ^\n" chain.rnc
printf 'name = text\n' >nostart.rnc
row no_start 1 '' 'rnc-flat: error: none of the files defines start\n' nostart.rnc
printf 'start = bad\nbad = element * - * { text }\n' >class.rnc
begins name_class 1 'class.rnc:2:1: error: a definition of `bad`, of which this is the first, has a name class that is not allowed: * excepts *, p:* excepts * or p:*, or an attribute may be named xmlns (RELAX NG, section 4.16)' class.rnc
{
    for _ in $(seq 10000); do echo 'include "empty.rnc"'; done
    echo 'start = text'
} >many.rnc
printf 'x |= empty\n' >empty.rnc
instances='rnc-flat: error: the files come to more than 512 instances of modules in all: each file that nobody includes is one, each inclusion is one, and each external or nested grammar is two\n'
row many_includes 1 '' "$instances" many.rnc
# one file with 256 nested grammars comes to one more than there may be, one with 255 to one less
{
    printf 'start = element a { '
    for n in $(seq 255); do printf 'grammar { start = empty }, '; done
    echo 'grammar { start = empty } }'
} >grammars.rnc
row many_grammars 1 '' "$instances" grammars.rnc
sed 's/grammar { start = empty }, //' grammars.rnc >fewer.rnc
if "$program" fewer.rnc >got.out 2>got.err && grep -q '^start = ' got.out; then pass; else fail "fewer_grammars: $(head -1 got.err)"; fi
# 200 nested grammars take 2,700 declarations of 30 bytes along each, 16,200,000 bytes; 2,900 are too many
declared() { for n in $(seq "$1"); do printf 'namespace p%04d = "n:%07d"\n' "$n" "$n"; done; }
grammars() { printf 'start = element a { empty'; for n in $(seq 200); do printf ', grammar { start = empty }'; done; echo ' }'; }
{ declared 2900; grammars; } >grown.rnc
row grown 1 '' "rnc-flat: error: what the files become is longer than they are by more than 16,777,216 bytes: a file's declarations go along with each grammar in it, and a file that is used in several ways is written for each\n" grown.rnc
{ declared 2700; grammars; } >growing.rnc
if "$program" growing.rnc >got.out 2>got.err && grep -q '^start = ' got.out; then pass; else fail "growing: $(head -1 got.err)"; fi
# a file and 1,024 nested grammars
{
    printf 'start = element a { empty'
    for n in $(seq 1024); do printf ', grammar { start = empty }'; done
    echo ' }'
} >modules.rnc
row many_modules 1 '' 'rnc-flat: error: the files become more than 1,024 modules\n' modules.rnc
# what three excepts refer to has 1.5 MB
{
    printf 'start = element a { xsd:string - (b) }\nc = xsd:string - (b)\nd = xsd:string - (b)\nb = "a"'
    for n in $(seq 100000); do printf ' | "%010d"' "$n"; done
    echo
} >excepted.rnc
row excepted_long 1 '' 'excepted.rnc:3:19: error: what is excepted by names becomes longer than 4,194,304 bytes\n    d = xsd:string - (b)\n                      ^\n' excepted.rnc
sed '/^d = /d' excepted.rnc >fewer.rnc
begins module_long 1 'fewer.rnc:1:1: error: the text of a module is longer than 4,194,304 bytes' fewer.rnc
sed '/^[cd] = /d' excepted.rnc >fewer.rnc
if "$program" fewer.rnc >got.out 2>got.err && grep -q '^start = ' got.out; then pass; else fail "one_except: $(head -1 got.err)"; fi
{
    printf 'start = '
    for n in $(seq 150000); do printf 'element name-of-an-element-number-%d { text } |\n' "$n"; done
    echo 'empty'
} >large.rnc
begins too_large 3 "rnc-flat: error: large.rnc: the file is larger than 4,194,304 bytes" large.rnc
{
    printf 'start = element a { '
    for n in $(seq 255); do printf 'element b { '; done
    printf 'deep'
    for n in $(seq 255); do printf ' }'; done
    printf ' }\ndeep = (text, (empty | element c { (text & element d { text }) }))\n'
} >deep.rnc
"$program" deep.rnc >got.out 2>got.err
if [ $? -le 1 ]; then pass; else fail "deep: $(head -1 got.err)"; fi

# ---- faults of texts, of all files
room texts
printf 'start = element a { text\n' >syntax.rnc
row syntax_end 1 '' 'syntax.rnc:1:25: error: the schema ends too early; `}` is expected\n    start = element a { text\n                            ^\n' syntax.rnc
printf 'start = element a { , }\n' >comma.rnc
row syntax 1 '' 'comma.rnc:1:21: error: `,` can'"'"'t stand here; a pattern is expected\n    start = element a { , }\n                        ^\n' comma.rnc
printf '\tstart = element a { ; }\n' >lexical.rnc
row lexical 1 '' 'lexical.rnc:1:22: error: nothing that the compact syntax has begins like this\n    \tstart = element a { ; }\n    \t                    ^\n' lexical.rnc
printf 'start = element p:a { text }\n' >prefix.rnc
begins prefix 1 'prefix.rnc:1:17: error: the prefix `p` is not declared' prefix.rnc
printf 'datatypes d = ""\nstart = element a { d:integer }\n' >builtin.rnc
begins builtin 1 'builtin.rnc:2:21: error: without a datatype library there are only `string` and `token`, without parameters' builtin.rnc
printf 'start = element a { xsd:QName "a" }\n' >context.rnc
begins context_value 1 'context.rnc:1:21: error: a value of the type QName or NOTATION depends on where it is written, and can'"'"'t be merged' context.rnc
printf 'start = element a { xsd:string - text }\n' >except.rnc
begins except 1 'except.rnc:1:32: error: only data, values and choices of them can be excepted from data' except.rnc
printf 'start = element a { text }\n# \377\n' >bytes.rnc
begins encoding 1 'bytes.rnc:2:3: error: the file is not UTF-8 from here on' bytes.rnc
{
    printf 'start = '
    for _ in $(seq 257); do printf '('; done
    printf 'text\n'
} >brackets.rnc
begins brackets 1 'brackets.rnc:1:265: error: more than 256 brackets are open here' brackets.rnc
printf 'start = "\344\270\226\347\225\214", ;\n' >wide.rnc
row columns_count_characters 1 '' 'wide.rnc:1:15: error: nothing that the compact syntax has begins like this\n    start = "\344\270\226\347\225\214", ;\n                    ^\n' wide.rnc
# of a longer line 80 characters are shown before the place: here the fault is behind 8 and 30 times 7 characters
{
    printf 'start = '
    for _ in $(seq 30); do printf 'text | '; done
    echo ';'
} >wider.rnc
row long_line 1 '' "wider.rnc:1:219: error: nothing that the compact syntax has begins like this\n     | $(printf 'text | %.0s' $(seq 11));\n    $(printf '%80s' '')^\n" wider.rnc
printf 'start = element a { text }\n\nx = \033[31m\n' >escape.rnc
row terminal 1 '' 'escape.rnc:3:5: error: XML does not allow this control character\n    x = ?[31m\n        ^\n' escape.rnc

# ---- all faults are told, in the order of the names of files and of their texts
comma_lines='comma.rnc:1:21: error: `,` can'"'"'t stand here; a pattern is expected\n    start = element a { , }\n                        ^\n'
lexical_lines='lexical.rnc:1:22: error: nothing that the compact syntax has begins like this\n    \tstart = element a { ; }\n    \t                    ^\n'
prefix_lines='prefix.rnc:1:17: error: the prefix `p` is not declared\n    start = element p:a { text }\n                    ^\n'
builtin_lines='builtin.rnc:2:21: error: without a datatype library there are only `string` and `token`, without parameters\n    start = element a { d:integer }\n                        ^\n'
except_lines='except.rnc:1:32: error: only data, values and choices of them can be excepted from data\n    start = element a { xsd:string - text }\n                                   ^\n'
printf 'include "none.rnc"\ninclude "lexical.rnc"\ninclude "comma.rnc"\nstart = text\n' >several.rnc
bad several 3 "$comma_lines$lexical_lines"'several.rnc:1:9: error: none.rnc: no such file\n    include "none.rnc"\n            ^\n' several.rnc
printf 'include "prefix.rnc"\ninclude "except.rnc"\ninclude "builtin.rnc"\n' >checked.rnc
bad checked 1 "$builtin_lines$except_lines$prefix_lines" checked.rnc
printf 'include "prefix.rnc"\ninclude "comma.rnc"\n' >both.rnc
bad both 1 "$comma_lines$prefix_lines" both.rnc
printf 'include "http://x/y"\ninclude "none.rnc"\ninclude "prefix.rnc"\nstart = element p:a { text }\ninclude "%%"\n' >links.rnc
bad links 3 'rnc-flat: error: nowhere.rnc: no such file\nlinks.rnc:1:9: error: no --map or --catalog says where http://x/y lies\n    include "http://x/y"\n            ^\nlinks.rnc:2:9: error: none.rnc: no such file\n    include "none.rnc"\n            ^\nlinks.rnc:4:17: error: the prefix `p` is not declared\n    start = element p:a { text }\n                    ^\nlinks.rnc:5:9: error: a % is not followed by two hexadecimal digits\n    include "%"\n            ^\n'"$prefix_lines" links.rnc nowhere.rnc
printf 'start = parent x\n' >lifted.rnc
bad lifted 1 'lifted.rnc:1:9: error: there is no grammar around this one that parent could mean\n    start = parent x\n            ^\n'"$prefix_lines" prefix.rnc lifted.rnc
{
    for n in $(seq 30); do echo "include \"none$n.rnc\""; done
    echo 'start = text'
} >thirty.rnc
thirty=
for n in $(seq 20); do thirty="${thirty}thirty.rnc:$n:9: error: none$n.rnc: no such file\n    include \"none$n.rnc\"\n            ^\n"; done
bad thirty 3 "${thirty}rnc-flat: note: there are more faults, which are not told: 10\n" thirty.rnc
{
    printf 'include "prefix.rnc"\n'
    for n in $(seq 20); do echo "include \"none$n.rnc\""; done
    echo 'start = text'
} >twenty.rnc
twenty=
for n in $(seq 20); do twenty="${twenty}twenty.rnc:$((n + 1)):9: error: none$n.rnc: no such file\n    include \"none$n.rnc\"\n            ^\n"; done
bad twenty_one 3 "$prefix_lines$(printf '%s' "$twenty" | sed 's/twenty.rnc:21:9.*//')rnc-flat: note: there are more faults, which are not told: 1\n" twenty.rnc

# ---- all refusals of a kind that can be found, in the order in which they are tested; the first is what rnc-merge answers
room refusals
printf 'start = a, b, c, d\na = text\na = empty\nb |= text\nb &= empty\nc = e\n' >faults.rnc
bad refusals 1 'faults.rnc:2:1: error: `a` is defined here and in faults.rnc:3:1, neither with |= nor &=\n    a = text\n    ^\nfaults.rnc:4:1: error: `b` is combined by |= here, and by &= in faults.rnc:5:1\n    b |= text\n    ^\nfaults.rnc:1:18: error: `d` is not defined\n    start = a, b, c, d\n                     ^\nfaults.rnc:6:5: error: `e` is not defined\n    c = e\n        ^\n' faults.rnc
printf 'b = text\nb &= text\nc = f\nb |= text\nd = f\n' >starts.rnc
bad refusals_no_start 1 'starts.rnc:4:1: error: `b` is combined by |= here, and by &= in starts.rnc:2:1\n    b |= text\n    ^\nrnc-flat: error: none of the files defines start\nstarts.rnc:3:5: error: `f` is not defined\n    c = f\n        ^\n' starts.rnc
printf 'include "b.rnc" {\n  y = empty\n  n = empty\n  x = empty\n}\nstart = n, m\n' >a.rnc
printf 'n = text\ninclude "c.rnc" { z = text }\n' >b.rnc
printf 'm = m?\nm = m?\n' >c.rnc
bad refusals_of_includes 1 'a.rnc:4:3: error: `x` replaces nothing: b.rnc, which is included in a.rnc:1:9, does not define it\n      x = empty\n      ^\na.rnc:2:3: error: `y` replaces nothing: b.rnc, which is included in a.rnc:1:9, does not define it\n      y = empty\n      ^\nb.rnc:2:19: error: `z` replaces nothing: c.rnc, which is included in b.rnc:2:9, does not define it\n    include "c.rnc" { z = text }\n                      ^\nc.rnc:1:1: error: `m` is defined here and in c.rnc:2:1, neither with |= nor &=\n    m = m?\n    ^\n' a.rnc
{
    echo 'start = text'
    for n in $(seq 10 34); do echo "d = u$n"; done
} >many.rnc
many='many.rnc:2:1: error: `d` is defined here and in many.rnc:3:1, neither with |= nor &=\n    d = u10\n    ^\n'
for n in $(seq 10 28); do many="${many}many.rnc:$((n - 8)):5: error: \`u$n\` is not defined\n    d = u$n\n        ^\n"; done
bad refusals_many 1 "${many}rnc-flat: note: there are more faults, which are not told: 6\n" many.rnc
printf 'include "twice.rnc"\ninclude "twice.rnc" { o = empty }\nstart = p, o\n' >twofold.rnc
printf 'p = text\no = q\n' >twice.rnc
bad refusals_twofold 1 'twofold.rnc:2:23: error: `o` is defined here and in twice.rnc:2:1, neither with |= nor &=\n    include "twice.rnc" { o = empty }\n                          ^\ntwice.rnc:1:1: error: `p` is defined here with =, and comes twice: by the includes in twofold.rnc:1:9 and in twofold.rnc:2:9\n    p = text\n    ^\ntwice.rnc:2:5: error: `q` is not defined\n    o = q\n        ^\n' twofold.rnc

# ---- files that are no input
room files
mkdir folder
printf 'start = text\n' >a.rnc
bad missing 3 'rnc-flat: error: none.rnc: no such file\n' none.rnc
bad missing_among 3 'rnc-flat: error: none.rnc: no such file\n' a.rnc none.rnc
bad folder 3 'rnc-flat: error: folder: this is a folder\n' folder
bad folder_at_the_top 3 'rnc-flat: error: /: this is a folder\n' /
truncate -s 300M huge.rnc
bad huge 3 'rnc-flat: error: huge.rnc: the file is larger than 4,194,304 bytes\n' huge.rnc
ln -s self.rnc self.rnc
bad link_to_itself 3 "rnc-flat: error: self.rnc: the file can't be read: too many symbolic links, or a loop of them\n" self.rnc
bad name_not_utf8 2 "error: a word is not UTF-8$hint" "$(printf 'a\377.rnc')"

# include NAME STATUS SENTENCE LITERAL: an include of the literal is told at it.
include() {
    printf 'start = text\ninclude "%s"\n' "$4" >include.rnc
    bad "$1" "$2" "include.rnc:2:9: error: $3\n    include \"$4\"\n            ^\n" include.rnc
}
include include_missing 3 'missing.rnc: no such file' 'missing.rnc'
include include_folder 3 'folder: this is a folder' 'folder'
include include_folder_at_the_top 3 '/: this is a folder' '/'
include include_huge 3 'huge.rnc: the file is larger than 4,194,304 bytes' 'huge.rnc'
include include_link_to_itself 3 "self.rnc: the file can't be read: too many symbolic links, or a loop of them" 'self.rnc'
include includes_itself 1 'the file refers to itself: include.rnc, include.rnc' 'include.rnc'
printf 'element note { text }\n' >note.rnc
include include_pattern 1 'the file is a pattern, and only a grammar can be included; external takes a pattern' 'note.rnc'
include host 1 'the reference names a host' 'file://host/x.rnc'
include scheme 1 'no --map or --catalog says where http://example.org/x.rnc lies' 'http://example.org/x.rnc'
include above 1 '`..` leads above the topmost folder' '../../../../../../../../../../../../../../../../../../../../x.rnc'
for up in %2e%2e %2E%2E %2e%2E .%2e .%2E %2e. %2E.; do
    include "above $up" 1 '`..` leads above the topmost folder' "file:///$up/x.rnc"
    printf 'include "http://m/%s/%s/x.rnc"\nstart = text\n' "$up" "$up" >include.rnc
    begins "above a map $up" 1 'include.rnc:1:9: error: `..` leads above the topmost folder' --map http://m/=folder include.rnc
    begins "above a map, with a root $up" 1 'include.rnc:1:9: error: `..` leads above the topmost folder' --root . --map http://m/=folder include.rnc
done
include above_at_once 1 '`..` leads above the topmost folder' 'file:///../x.rnc'
include nul 1 'an escape stands for a byte that no file name holds' 'x%00.rnc'
include slash 1 'an escape stands for a byte that no file name holds' 'x%2Fy.rnc'
include escape 1 'a % is not followed by two hexadecimal digits' 'x%2'
include not_utf8 1 'the escapes are not UTF-8' 'x%FF.rnc'
include query 1 'the reference has a query' 'x.rnc?y'
include fragment 1 'the reference has a fragment' 'x.rnc#y'
include empty 1 'the reference is empty' ''
include relative 1 'the path of a file URI begins with /' 'file:x.rnc'

printf 'include "other.rnc"\nstart = text\n' >cycle.rnc
printf 'include "cycle.rnc"\n' >other.rnc
bad cycle 1 'other.rnc:1:9: error: the file refers to itself: cycle.rnc, other.rnc, cycle.rnc\n    include "cycle.rnc"\n            ^\n' cycle.rnc
printf 'start = element a { external "bad.rnc" }\n' >external.rnc
printf 'start = element a { | }\n' >bad.rnc
bad external_faulty 1 'bad.rnc:1:21: error: `|` can'"'"'t stand here; a pattern is expected\n    start = element a { | }\n                        ^\n' external.rnc
printf 'start = element a { external "own.rnc" }\n' >back.rnc
printf 'element b { external "back.rnc" }\n' >own.rnc
bad external_cycle 1 'own.rnc:1:22: error: the file refers to itself: back.rnc, own.rnc, back.rnc\n    element b { external "back.rnc" }\n                         ^\n' back.rnc
printf 'start = parent x\n' >parent.rnc
bad no_parent 1 'parent.rnc:1:9: error: there is no grammar around this one that parent could mean\n    start = parent x\n            ^\n' parent.rnc
mkdir many
{
    for n in $(seq 1024); do
        echo "include \"many/$n.rnc\""
        : >"many/$n.rnc"
    done
    echo 'start = text'
} >many.rnc
bad files_many 1 'many.rnc:1024:9: error: there are more than 1,024 files\n    include "many/1024.rnc"\n            ^\n' many.rnc
for n in $(seq 1025 1030); do : >"many/$n.rnc"; done
bad words_many 1 'rnc-flat: error: many/1025.rnc: there are more than 1,024 files\n' $(seq -f 'many/%g.rnc' 1030)
printf 'x |= text\n' >'a b.rnc'
printf 'include "a%%20b.rnc"\nstart = x\n' >spaced.rnc
row escaped 0 'default namespace = ""\nstart = x\nx = text\n' '' spaced.rnc
row escaped_names 0 'a%20b.rnc a b.rnc\nspaced.rnc spaced.rnc\n' '' --list spaced.rnc
controls=$(printf 'c\nd\033.rnc')
printf 'start = text\n' >"$controls"
row listed_controls 0 'c%0Ad%1B.rnc c?d?.rnc\n' '' --list "$controls"
rm "$controls"
long=$(printf 'n%.0s' $(seq 201))
printf 'start = text\n' >"$long"
ln -s . linked
bad long_name 1 "rnc-flat: error: $long: the name of the file, below the root folder, is longer than 200 bytes\n" "$long"
bad root_missing 3 'rnc-flat: error: nowhere: no such file\n' --root nowhere a.rnc
bad root_is_a_file 3 'rnc-flat: error: a.rnc: this is not a folder\n' --root a.rnc a.rnc
bad root_is_a_device 3 'rnc-flat: error: /dev/null: this is not a folder\n' --root /dev/null a.rnc
row root_is_a_link 0 'a.rnc linked/a.rnc\n' '' --root linked --list linked/a.rnc

# Nothing is read outside of the root folder: what is there may be at fault.
printf 'start = element a { , }\n' >outside.rnc
ln -s ../outside.rnc folder/link.rnc
bad outside_root 1 'rnc-flat: error: outside.rnc: the file is not below the root folder\n' --root folder outside.rnc
printf 'include "../outside.rnc"\ninclude "../none.rnc"\ninclude "link.rnc"\ninclude "inside.rnc"\nstart = text\n' >folder/above.rnc
bad above_root 3 'folder/above.rnc:1:9: error: the file is not below the root folder\n    include "../outside.rnc"\n            ^\nfolder/above.rnc:2:9: error: the file is not below the root folder\n    include "../none.rnc"\n            ^\nfolder/above.rnc:3:9: error: the file is not below the root folder\n    include "link.rnc"\n            ^\nfolder/above.rnc:4:9: error: folder/inside.rnc: no such file\n    include "inside.rnc"\n            ^\n' --root folder folder/above.rnc
printf 'include "http://x/a.rnc"\n' >folder/mapped.rnc
row mapped_outside_root 0 'default namespace = ""\nstart = text\n' '' --root folder --map http://x/=. folder/mapped.rnc

# ---- what messages pass on
room shown
n80=$(printf 'n%.0s' $(seq 80))
printf 'start = %s\n' "$n80" >short.rnc
bad name_of_80 1 "short.rnc:1:9: error: \`$n80\` is not defined\n    start = $n80\n            ^\n" short.rnc
printf 'start = %sm\n' "$n80" >long.rnc
bad name_of_81 1 "long.rnc:1:9: error: \`$n80..\` is not defined\n    start = ${n80}m\n            ^\n" long.rnc
e80=$(printf '\303\251%.0s' $(seq 80))
printf 'start = %s\303\251\n' "$e80" >accents.rnc
bad name_of_81_of_two_bytes 1 "accents.rnc:1:9: error: \`$e80..\` is not defined\n    start = ${e80}\303\251\n            ^\n" accents.rnc
printf 'start = text "%sm"\n' "$n80" >token.rnc
bad token_of_83 1 "token.rnc:1:14: error: \`\"${n80%n}..\` can't stand here\n    start = text \"${n80}m\"\n                 ^\n" token.rnc
printf 'start = text\n%sm = text\n%sm = empty\n%so |= text\n%so &= text\n' "$n80" "$n80" "$n80" "$n80" >methods.rnc
bad names_defined 1 "methods.rnc:2:1: error: \`$n80..\` is defined here and in methods.rnc:3:1, neither with |= nor &=\n    ${n80}m = text\n    ^\nmethods.rnc:4:1: error: \`$n80..\` is combined by |= here, and by &= in methods.rnc:5:1\n    ${n80}o |= text\n    ^\n" methods.rnc
printf 'start = a%s\na%s = b%s\nb%s = a%s\n' "$n80" "$n80" "$n80" "$n80" "$n80" >loop.rnc
bad names_of_a_loop 1 "loop.rnc:2:1: error: \`a${n80%n}..\` refers to itself outside elements: by \`b${n80%n}..\` in loop.rnc:3:1\n    a$n80 = b${n80%nnnnn}\n    ^\n" loop.rnc
printf 'include "short.rnc" { start = text %sm = text }\n' "$n80" >override.rnc
bad name_that_replaces_nothing 1 "override.rnc:1:36: error: \`$n80..\` replaces nothing: short.rnc, which is included in override.rnc:1:9, does not define it\n    include \"short.rnc\" { start = text ${n80}m = text }\n                                       ^\n" override.rnc
# characters that turn the direction of a text, are not seen or part lines: Cf, Zl and Zp
hidden='\302\255\342\200\213\342\200\215\342\200\216\342\200\252\342\200\253\342\200\254\342\200\255\342\200\256\342\201\246\342\201\247\342\201\250\342\201\251\342\200\250\342\200\251\357\273\277\363\240\200\201'
printf "start = x # a${hidden}z\\n" >hidden.rnc
bad hidden_in_a_line 1 'hidden.rnc:1:9: error: `x` is not defined\n    start = x # a?????????????????z\n            ^\n' hidden.rnc
printf 'start = x #\t\303\251 \344\270\226 \360\237\230\200 \302\240 \342\200\224\n' >seen.rnc
bad seen_in_a_line 1 'seen.rnc:1:9: error: `x` is not defined\n    start = x #\t\303\251 \344\270\226 \360\237\230\200 \302\240 \342\200\224\n            ^\n' seen.rnc
turned=$(printf 'a\342\200\256b\342\201\246.rnc')
printf 'start = x\n' >"$turned"
bad hidden_in_a_file_name 1 'a?b?.rnc:1:9: error: `x` is not defined\n    start = x\n            ^\n' "$turned"
bad hidden_in_a_missing_name 3 'rnc-flat: error: c?d.rnc: no such file\n' "$(printf 'c\342\200\250d.rnc')"
# of the files of a long loop 20 are named
for n in $(seq 25); do echo "include \"f$((n % 25 + 1)).rnc\"" >"f$n.rnc"; done
files=
for n in $(seq 20); do files="${files}f$n.rnc, "; done
begins long_loop_of_files 1 "f25.rnc:1:9: error: the file refers to itself: ${files}5 more, f1.rnc" f1.rnc

# ---- messages that say what is wrong with prefixes, names and literals, and what to do
room advice
# told NAME LINE:COLUMN SENTENCE TEXT WORD..: what begins the messages on a file of this text.
told() {
    local name=$1 place=$2 sentence=$3
    printf '%b' "$4" >told.rnc
    shift 4
    begins "$name" 1 "told.rnc:$place: error: $sentence" "$@" told.rnc
}
told prefix_twice 2:11 'the prefix `p` is declared twice' 'namespace p = "a"\nnamespace p = "b"\nstart = element p:a { text }\n'
told prefix_of_the_default_twice 2:19 'the prefix `p` is declared twice' 'namespace p = "a"\ndefault namespace p = "b"\nstart = text\n'
told second_default 2:1 'this is a second default namespace' 'default namespace = "a"\ndefault namespace = "b"\nstart = text\n'
told xmlns 1:11 "the prefix \`xmlns\` can't be declared" 'namespace xmlns = "a"\nstart = text\n'
told xml 1:11 'the prefix `xml` stands for http://www.w3.org/XML/1998/namespace and for nothing else' 'namespace xml = "a"\nstart = text\n'
told datatypes_twice 2:11 'the prefix `d` is declared twice' 'datatypes d = "a"\ndatatypes d = "b"\nstart = text\n'
told xsd 1:11 'the prefix `xsd` stands for http://www.w3.org/2001/XMLSchema-datatypes and for nothing else' 'datatypes xsd = "a"\nstart = text\n'
told prefix_of_a_namespace 2:21 'the prefix `d` is declared for a namespace, and not for datatypes' 'namespace d = "a"\nstart = element a { d:int }\n'
told prefix_of_datatypes 2:17 'the prefix `d` is declared for datatypes, and not for a namespace' 'datatypes d = "a"\nstart = element d:a { text }\n'
told any_name_of_a_prefix 1:17 'the prefix `q` is not declared' 'start = element q:* { text }\n'
printf 'x = text\n' >part.rnc
printf 'element note { text }\n' >note.rnc
told inherited_prefix 1:28 'the prefix `q` is not declared' 'include "part.rnc" inherit=q\nstart = text\n'
told placed_prefix 1:51 'the prefix `q` is not declared' 'start = element a { external "note.rnc" inherit = q }\n'
told keyword_defined 2:1 "\`element\` can't stand here; \`element\` is a keyword, which is written \`\\element\` where it is a name" 'start = text\nelement = text\n'
told keyword_defined_first 1:6 "\`=\` can't stand here; \`list\` is a keyword, which is written \`\\list\` where it is a name" 'list = text\nstart = text\n'
told keyword_referred_to 1:21 "\`div\` can't stand here; \`div\` is a keyword, which is written \`\\div\` where it is a name" 'start = element a { div }\n'
told keyword_of_parent 1:38 "\`list\` can't stand here; \`list\` is a keyword, which is written \`\\list\` where it is a name" 'start = grammar { start = a a=parent list }\n'
told wanted_brace 1:19 "\`text\` can't stand here; \`{\` is expected" 'start = element a text\n'
told wanted_literal 1:9 "\`b\` can't stand here; a literal is expected" 'include b\n'
told wanted_sign 1:7 "\`text\` can't stand here; \`=\`, \`|=\` or \`&=\` is expected" 'start text\n'
told wanted_equals 1:13 "\`\"u\"\` can't stand here; \`=\` is expected" 'namespace p "u"\n'
told wanted_name_class 1:17 "\`{\` can't stand here; a name or \`*\` is expected" 'start = element { text }\n'
told wanted_at_the_end 1:13 'the schema ends too early; `)` is expected' 'start = (a,b\n'
told mixed_signs 1:26 "\`,\` can't stand here; patterns that are joined by different signs need parentheses" 'start = element a { b | c, d }\nb = text\nc = text\nd = text\n'
told two_postfixes 1:23 "\`*\` can't stand here; behind a pattern there is one of ?, * and +" 'start = element a { b?* }\nb = text\n'
told literal_not_closed 1:21 'this literal is not closed; only between three quotation marks it goes on in the next line' 'start = element a { "b }\n'
told backslash 1:9 'a backslash stands only before a name' 'start = \\{}\n'
told escape_of_a_name 1:1 'an escape such as \x{41} is read in literals alone' '\\x{73}tart = text\n'
printf '\377\376s\000' >utf16.rnc
bad utf16 1 'utf16.rnc:1:1: error: the file is in UTF-16, and only UTF-8 is read\n' utf16.rnc
bad below_a_file 3 "rnc-flat: error: note.rnc/a.rnc: the file can't be read: a part of its path is not a folder\n" note.rnc/a.rnc
# a near name: at most two edits, and at most a third of the bytes of the name
told near 1:23 '`adress` is not defined: did you mean `address`?' 'start = element doc { adress }\naddress = text\naddrossi = text\n'
told near_by_two_edits 1:9 '`adderss` is not defined: did you mean `address`?' 'start = adderss\naddress = text\n'
told far_by_two_edits 1:9 '`anme` is not defined' 'start = anme\nname = text\n'
told near_in_an_except 1:34 '`valeus` is not defined: did you mean `values`?' 'start = element a { xsd:string - valeus }\nvalues = "v"\n'
told near_name_of_another_grammar 1:37 '`name` is not defined' 'start = grammar { start = element a{name} }, element b { text }\nnames = text\n'
told near_name_of_its_grammar 1:37 '`name` is not defined: did you mean `names`?' 'start = grammar { start = element a{name} names = text }\n'
# a byte order mark is no column, and isn't shown
printf '\357\273\277start = element a { bad }\n' >marked.rnc
bad marked 1 'marked.rnc:1:21: error: `bad` is not defined\n    start = element a { bad }\n                        ^\n' marked.rnc
printf '\357\273\277start = text\na = bad\n' >marked.rnc
bad marked_second_line 1 'marked.rnc:2:5: error: `bad` is not defined\n    a = bad\n        ^\n' marked.rnc
# the accent over the e takes no column of a terminal
printf 'start = "e\314\201", x\n' >accent.rnc
bad combining 1 'accent.rnc:1:15: error: `x` is not defined\n    start = "e\314\201", x\n                 ^\n' accent.rnc

# ---- messages as JSON
room json
printf 'start = x\n' >a.rnc
printf 'start = text\n' >d.rnc
row json 1 '' '{"file":"a.rnc","line":1,"column":9,"end":10,"severity":"error","kind":"undefined","sentence":"`x` is not defined","places":[]}\n' --format json a.rnc
row json_as_text 1 '' 'a.rnc:1:9: error: `x` is not defined\n    start = x\n            ^\n' --format text a.rnc
printf 'start = text\nname = text\nname = empty\n' >b.rnc
row json_places 1 '' '{"file":"b.rnc","line":2,"column":1,"end":5,"severity":"error","kind":"duplicate","sentence":"`name` is defined here and in b.rnc:3:1, neither with |= nor &=","places":[{"file":"b.rnc","line":3,"column":1,"end":5}]}\n' --format json b.rnc
printf 'start = text\ninclude "none.rnc"\n' >c.rnc
row json_literal 3 '' '{"file":"c.rnc","line":2,"column":9,"end":19,"severity":"error","kind":"unreadable","sentence":"none.rnc: no such file","places":[]}\n' --format json c.rnc
row json_without_place 3 '' '{"severity":"error","kind":"unreadable","sentence":"none\\".rnc: no such file","places":[]}\n' --format json 'none".rnc'
row json_output 3 '' '{"severity":"error","kind":"unwritable","sentence":"none/x can'"'"'t be written: no such file or folder","places":[]}\n' --format json -o none/x d.rnc
row json_usage 2 '' '{"severity":"error","kind":"usage","sentence":"d.rnc is one of the files that are read","places":[]}\n' --format json -o d.rnc d.rnc
{
    echo 'start = text'
    for n in $(seq 10 31); do echo "d$n = u$n"; done
} >many.rnc
if [ "$("$program" --format json many.rnc 2>&1 | tail -1)" = '{"severity":"note","kind":"further","count":2}' ]; then pass; else fail json_further; fi
begins json_word 2 "error: invalid value 'xml' for '--format <WORD>'" --format xml a.rnc

# ---- chains of references in excepts
room excepts
{
    echo 'start = element a { xsd:string - x1 }'
    for n in $(seq 2999); do echo "x$n = x$((n + 1))"; done
    echo 'x3000 = "v"'
} >chain.rnc
printf 'start = element a { xsd:string - "v" }\n' >value.rnc
"$program" chain.rnc 2>got.err | head -2 >chain.out
"$program" value.rnc >value.out
same except_through_3000_references chain.out value.out
{
    echo 'start = element a { xsd:string - x1 }'
    for n in $(seq 299); do echo "x$n = x$((n + 1)) | \"v$n\""; done
    echo 'x300 = "v300"'
} >choices.rnc
{
    printf 'start = element a { xsd:string - ("v300"'
    for n in $(seq 299); do printf ' | "v%s"' "$n"; done
    echo ') }'
} >flat.rnc
"$program" choices.rnc 2>got.err | head -2 >choices.out
"$program" flat.rnc >flat.out
same except_through_300_choices choices.out flat.out
printf 'start = element a { xsd:string - x }\nx = y\ny = z\nz = x\n' >round.rnc
bad except_of_a_loop 1 "round.rnc:1:34: error: this stands for more than data, values and choices of them, which alone can be excepted\n    start = element a { xsd:string - x }\n                                     ^\n" round.rnc

# ---- the stack: what 256 open brackets take of it
room stack
deep_texts
nested deep-grammars 255 'start = ' 'grammar { start = ' text ' }' ''
nested deep-grammars-of-elements 127 'start = element r { ' 'element a { grammar { start = ' text ' } }' ' }'
# A program compiled with checks takes more.
if [ "${CHECKED:-0}" -eq 0 ]; then
    for file in deep-*.rnc; do
        shallow "$file" "$file"
        shallow "$file, in XML" --rng "$file"
    done
fi

# ---- colours
room colours
printf 'start = x\n' >a.rnc
if command -v script >/dev/null; then
    script -qec "NO_COLOR= $program a.rnc" /dev/null >got.err 2>/dev/null </dev/null
    if grep -q "$(printf '\033')\[31merror: " got.err; then pass; else fail 'colours on a terminal'; fi
    script -qec "NO_COLOR=1 $program a.rnc" /dev/null >got.err 2>/dev/null </dev/null
    if grep -q 'error: `x` is not defined' got.err && ! grep -q "$(printf '\033')" got.err; then pass; else fail 'NO_COLOR'; fi
    script -qec "NO_COLOR= TERM=dumb $program a.rnc" /dev/null >got.err 2>/dev/null </dev/null
    if grep -q 'error: `x` is not defined' got.err && ! grep -q "$(printf '\033')" got.err; then pass; else fail 'a dumb terminal'; fi
fi
painted='\033[1ma.rnc:1:9: \033[31merror: \033[0m`x` is not defined\n    start = x\n            \033[1;32m^\033[0m\n'
plain='a.rnc:1:9: error: `x` is not defined\n    start = x\n            ^\n'
row colour_always 1 '' "$painted" --color always a.rnc
row colour_never 1 '' "$plain" --color never a.rnc
row colour_auto 1 '' "$plain" --color auto a.rnc
export CLICOLOR_FORCE=1
row colour_forced 1 '' "$painted" a.rnc
row colour_forced_never 1 '' "$plain" --color never a.rnc
NO_COLOR=1 row colour_forced_and_refused 1 '' "$plain" a.rnc
CLICOLOR_FORCE=0 row colour_not_forced 1 '' "$plain" a.rnc
unset CLICOLOR_FORCE
begins colour_word 2 "error: invalid value 'red' for '--color <WORD>'" --color red a.rnc

# ---- a pipe that its reader closes ends the program without a sentence
room closed
{
    printf 'start = empty\n'
    for number in $(seq 20000); do printf '| element x%d { empty }\n' "$number"; done
} >large.rnc
"$program" large.rnc 2>got.err | head -c 1 >/dev/null
closed=${PIPESTATUS[0]}
if [ "$closed" -eq 141 ] && [ ! -s got.err ]; then pass; else fail "closed pipe: status $closed: $(head -1 got.err)"; fi

tell
