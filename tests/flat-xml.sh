#!/usr/bin/env bash
# Runs the program rnc-flat on files in the XML syntax: what it writes is read back, faults are told in the XML, and what is too large, deep or cut is
# refused. Usage: tests/flat-xml.sh [PROGRAM]   (without PROGRAM: crates/rnc_flat/out/rnc_flat)
set -u

here=$(cd "$(dirname "${BASH_SOURCE[0]}")" && pwd)
source "$here/rows.sh" rnc_flat "$@"

rng='xmlns="http://relaxng.org/ns/structure/1.0"'

# told NAME PLACE SENTENCE: the file NAME.rng is refused with this sentence at this place.
told() {
    local got
    "$program" "$1.rng" >"$work/got.out" 2>"$work/got.err"
    got=$?
    if [ "$got" -eq 1 ] && [ ! -s "$work/got.out" ] && [ "$(head -1 "$work/got.err")" = "$1.rng:$2: error: $3" ]; then
        pass
    else
        fail "$1: status $got: $(head -1 "$work/got.err")"
    fi
}

# kind NAME WORD: the message on the file NAME.rng is of this kind.
kind() {
    local got
    got=$("$program" --format json "$1.rng" 2>&1 >"$work/got.out" | sed 's/.*"kind":"\([^"]*\)".*/\1/')
    if [ "$got" = "$2" ]; then pass; else fail "kind of $1: $got"; fi
}

# times NAME COUNT OPEN INNER CLOSE: writes NAME.rng, an element with so many times OPEN before INNER and CLOSE behind it.
times() {
    {
        printf '<element %s name="a">' "$rng"
        printf -- "$3%.0s" $(seq "$2")
        printf '%b' "$4"
        printf -- "$5%.0s" $(seq "$2")
        printf '</element>\n'
    } >"$1.rng"
}

# ---- what is written is read back: each schema of the rows of rng_tests, in its canonical spelling
python3 - "$here/../crates/rng_tests/src" <<'END'
import pathlib, re, sys

rows = [row for file in sorted(pathlib.Path(sys.argv[1]).glob("*.rt")) for text in re.findall(r'r#"(.*?)"#', file.read_text("utf-8"), re.S)
        for row in text.split("\n--\n") if "\n=>\n" in row]
for number, row in enumerate(rows):
    pathlib.Path(f"row-{number}.rnc").write_text(row.split("\n=>\n")[0], encoding="utf-8")
END
read_back=0
for file in row-*.rnc; do
    stem=${file%.rnc}
    # Some rows are of texts that rnc-flat refuses, as those without a start.
    "$program" "$file" >"$stem.flat" 2>/dev/null || continue
    "$program" --rng "$file" >"$stem.rng"
    "$program" "$stem.rng" >"$stem.again" 2>&1
    same "$stem read back" "$stem.flat" "$stem.again"
    "$program" --rng "$stem.rng" >"$stem.again" 2>&1
    same "$stem written again" "$stem.rng" "$stem.again"
    read_back=$((read_back + 1))
done
if [ "$read_back" -ge 60 ]; then pass; else fail "only $read_back schemas are read back"; fi
rm row-*

# ---- what no document has
printf '<!DOCTYPE grammar [<!ENTITY x "y">]>\n<grammar %s/>\n' "$rng" >doctype.rng
told doctype 1:1 'a document type declaration is not read'
printf '<grammar %s>\n  <start><value>&nbsp;</value></start>\n</grammar>\n' "$rng" >entity.rng
told entity 2:17 '&nbsp; is not defined: a document without type declaration has amp, lt, gt, quot and apos'
kind entity syntax
printf '<grammar %s>\n  <start><value>a]]>b</value></start>\n</grammar>\n' "$rng" >section.rng
told section 2:18 "]]> can't stand in text"
printf '<grammar %s>\n  <start><value>a<b xmlns="u"/>c</value></start>\n</grammar>\n' "$rng" >foreign.rng
told foreign 2:18 "an element of another namespace can't stand in \`value\`"
kind foreign syntax
printf '<grammar %s>\r  <start>\r\n    <ref name="x"/></start>\r</grammar>\r' "$rng" >returns.rng
told returns 3:16 '`x` is not defined'
printf '<grammar %s>\n  <start><n:text/></start>\n</grammar>\n' "$rng" >prefix.rng
told prefix 2:11 'the prefix n is not declared'
kind prefix prefix
printf '<grammar %s>\n  <start><value>\001</value></start>\n</grammar>\n' "$rng" >character.rng
told character 2:17 'no XML document has this character'
kind character lexical
printf '<grammar %s xml:base="in/">\n</grammar>\n' "$rng" >base.rng
told base 1:54 'xml:base is not followed: write it into the href'

# ---- bytes that are cut, or in another encoding
python3 - <<'END'
text = '<?xml version="1.0" encoding="UTF-16"?>\n<element xmlns="http://relaxng.org/ns/structure/1.0" name="a"><text/></element>\n'
whole = text.encode("utf-16-le")
open("unit.rng", "wb").write(b"\xff\xfe" + whole[:99])
open("half.rng", "wb").write(b"\xfe\xff" + text[:60].encode("utf-16-be") + b"\xd8\x3d")
open("other.rng", "wb").write(text.replace("UTF-16", "EBCDIC").encode())
open("latin.rng", "wb").write(text.replace("UTF-16", "US-ASCII").replace('"a"', '"\xe9"').encode("latin-1"))
END
told unit 2:10 'this is not UTF-16'
kind unit encoding
told half 2:21 'this is not UTF-16'
told other 1:31 'the document says that its encoding is EBCDIC: UTF-8, UTF-16, ISO-8859-1 and US-ASCII are read'
kind other encoding
told latin 2:60 'this is not US-ASCII'

# ---- what is too deep: elements of a document, and brackets of its compact text
times open 511 '<group>' '<text/>' '</group>'
told open 1:3640 'more than 512 elements are open'
kind open limit
times groups 510 '<group>' '<text/>' '</group>'
row groups 0 'default namespace = ""\nstart = element a { text }\n' '' groups.rng
times brackets 127 '<choice><text/><group><text/>' '<text/>' '</group></choice>'
printf 'start = element a { %s text %s }\n' "$(printf 'text | (text, (%.0s' $(seq 126)) text | (text, " "$(printf '))%.0s' $(seq 126)))" >brackets.rnc
"$program" brackets.rnc >brackets.out
row brackets 0 "$(cat brackets.out)\n" '' brackets.rng
times deeper 129 '<choice><text/><group><text/>' '<text/>' '</group></choice>'
told deeper 1:3775 'more than 256 brackets are open here'
kind deeper limit

# ---- what is too long: a file, in either syntax, and the compact text of a shorter one
{ printf '<element %s name="a"><text/></element>' "$rng"; head -c 4194304 /dev/zero | tr '\0' ' '; } >huge.rng
row huge 3 '' 'rnc-flat: error: huge.rng: the file is larger than 4,194,304 bytes\n' huge.rng
printf '<grammar %s>\n  <include href="huge.rng"/>\n</grammar>\n' "$rng" >include.rng
row include_huge 3 '' 'include.rng:2:18: error: huge.rng: the file is larger than 4,194,304 bytes\n      <include href="huge.rng"/>\n                     ^\n' include.rng
{ printf '<element %s name="a"><value>' "$rng"; head -c 840000 /dev/zero | tr '\0' '\n'; printf '</value></element>'; } >grown.rng
told grown 1:70 'the schema would have more than 4,194,304 bytes in the compact syntax'
kind grown limit
head -c 4194304 huge.rng >most.rng
row most 0 'default namespace = ""\nstart = element a { text }\n' '' most.rng

# ---- a reference to a pipe
mkfifo pipe.fifo
printf '<grammar %s><include href="pipe.fifo"/></grammar>\n' "$rng" >pipe.rng
row pipe 3 '' "pipe.rng:1:69: error: pipe.fifo: this is not a regular file\n    <grammar $rng><include href=\"pipe.fifo\"/></grammar>\n$(printf '%72s')^\n" pipe.rng

# ---- refusals speak of what the XML syntax has
printf '<element %s name="a"><text/></element>\n' "$rng" >pattern.rng
printf '<grammar %s>\n  <include href="pattern.rng"/>\n</grammar>\n' "$rng" >included.rng
told included 2:18 'the file is a pattern, and only a grammar can be included; externalRef takes a pattern'
printf '<grammar %s>\n  <start><parentRef name="a"/></start>\n</grammar>\n' "$rng" >parent.rng
told parent 2:10 'there is no grammar around this one that parentRef could mean'
printf '<grammar %s>\n  <start><text/></start>\n  <start><empty/></start>\n</grammar>\n' "$rng" >plain.rng
told plain 2:3 '`start` is defined here and in plain.rng:3:3, both times without combine'
printf '<grammar %s>\n  <start combine="interleave"><text/></start>\n  <start combine="choice"><empty/></start>\n</grammar>\n' "$rng" >mixed.rng
told mixed 3:3 '`start` is combined by choice here, and by interleave in mixed.rng:2:3'
printf '<grammar %s>\n  <define name="a"><text/></define>\n</grammar>\n' "$rng" >once.rng
printf '<grammar %s>\n  <include href="once.rng"/>\n  <include href="once.rng"/>\n  <start><ref name="a"/></start>\n</grammar>\n' "$rng" >twice.rng
row twice 1 '' 'once.rng:2:17: error: `a` is defined here without combine, and comes twice: by the includes in twice.rng:2:18 and in twice.rng:3:18\n      <define name="a"><text/></define>\n                    ^\n' twice.rng

# ---- what is told of a schema leads back to the XML
printf '<grammar %s>\n <start><ref name="a"/></start>\n <define name="a"><element name="a"><text/></element></define>\n <define name="b"><text/></define>\n</grammar>\n' "$rng" >told.rng
row unused 1 'told.rng:4:16: b\n' '' --unused told.rng
row origins 0 'start told.rng:2:2\na told.rng:3:16\n' '' --origins told.rng

tell
