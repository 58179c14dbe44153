#!/usr/bin/env bash
# Runs the program rnc-flat where users look into schemas: graphs, unused definitions, origins, faults of parts of a
# schema, and standard input in place of a file.
# Usage: tests/flat-looks.sh [PROGRAM]   (without PROGRAM: crates/rnc_flat/out/rnc_flat)
set -u

source "$(dirname "${BASH_SOURCE[0]}")/rows.sh" rnc_flat "$@"

# room NAME: a new folder, which the rows after it run in.
room() {
    mkdir -p "$work/rooms/$1"
    cd "$work/rooms/$1" || exit 2
}

hint="\n\nFor more information, try '--help'.\n"

# ---- words
room words
printf 'start = element a { empty }\n' >a.rnc
row lint_and_check 2 '' "error: --check can't be given with --lint$hint" --lint --check x a.rnc
row lint_and_list 2 '' "error: --lint can't be given with --list$hint" --list --lint a.rnc
row lint_and_output 2 '' "error: --lint can't be given with --output$hint" --lint -o x a.rnc
row lint_and_rng 2 '' "error: --rng can't be given with --lint$hint" --lint --rng a.rnc
row unused_and_graph 2 '' "error: --graph can't be given with --unused$hint" --unused --graph a.rnc
row unused_and_origins 2 '' "error: --unused can't be given with --origins$hint" --origins --unused a.rnc
row unused_and_rng 2 '' "error: --rng can't be given with --unused$hint" --rng --unused a.rnc
row origins_and_check 2 '' "error: --check can't be given with --origins$hint" --origins --check x a.rnc
row unused_to_xml 2 '' "error: a file that ends in .rng holds the XML syntax, which --rng writes$hint" --unused -o flat.rng a.rnc
row name_without_input 2 '' "error: --stdin-name needs - among the files$hint" --stdin-name b.rnc a.rnc
row name_empty 2 '' "error: --stdin-name needs the name of a file$hint" --stdin-name '' -

# ---- graphs
room graph
printf 'include "b.rnc"\ninclude "b.rnc"\nstart = x, external "c.rnc", external "c.rnc"\n' >a.rnc
printf 'x |= text\n' >b.rnc
printf 'element c { empty }\n' >c.rnc
row graph_once 0 'digraph schema {\n    rankdir=LR;\n    "a.rnc";\n    "b.rnc";\n    "c.rnc";\n    "a.rnc" -> "b.rnc";\n    "a.rnc" -> "c.rnc" [style=dashed];\n}\n' '' --graph a.rnc
printf 'include "two.rnc"\nstart = text\n' >one.rnc
printf 'include "three.rnc"\ninclude "b.rnc"\n' >two.rnc
printf 'y = external "two.rnc"\n' >three.rnc
loop='three.rnc:1:14: error: the file refers to itself: two.rnc, three.rnc, two.rnc\n    y = external "two.rnc"\n                 ^\n'
drawn='digraph schema {\n    rankdir=LR;\n    "one.rnc";\n    "two.rnc";\n    "three.rnc";\n    "b.rnc";\n    "one.rnc" -> "two.rnc";\n    "two.rnc" -> "three.rnc" [color=red];\n    "two.rnc" -> "b.rnc";\n    "three.rnc" -> "two.rnc" [style=dashed, color=red];\n}\n'
row graph_loop 1 "$drawn" "$loop" --graph one.rnc
row graph_loop_output 1 '' "$loop" --graph -o loop.dot one.rnc
printf '%b' "$drawn" >wanted.dot
same graph_loop_file loop.dot wanted.dot
row list_loop 1 '' "$loop" --list one.rnc
printf 'include "self.rnc"\n' >self.rnc
row graph_self 1 'digraph schema {\n    rankdir=LR;\n    "self.rnc";\n    "self.rnc" -> "self.rnc" [color=red];\n}\n' \
    'self.rnc:1:9: error: the file refers to itself: self.rnc, self.rnc\n    include "self.rnc"\n            ^\n' --graph self.rnc

# ---- unused definitions
room unused
mkdir lib
printf 'include "lib/b.rnc" {\n  kept = used\n}\nstart = element a { kept }\nused = text\nlost = other\n' >a.rnc
printf 'kept = gone\ngone = text\nother |= empty\n  other |= text\nlost |= empty\n' >lib/b.rnc
printf 'lost |= text\nstart |= empty\n' >c.rnc
sed -i 's/lost = other/lost |= other/' a.rnc
row unused 1 'a.rnc:6:1: lost\nlib/b.rnc:2:1: gone\nlib/b.rnc:3:1: other\nlib/b.rnc:4:3: other\nlib/b.rnc:5:1: lost\n' '' --unused a.rnc
row unused_output 1 '' '' --unused -o unused.txt a.rnc
if [ "$(wc -l <unused.txt)" = 5 ]; then pass; else fail 'unused_output: other lines'; fi
printf 'start = element a { x }\nx = y?\ny = element b { x }\n' >all.rnc
row unused_none 0 '' '' --unused all.rnc
printf 'start = text\nx = y\ny = z\nz = text\n' >chain.rnc
row unused_chain 1 'chain.rnc:2:1: x\nchain.rnc:3:1: y\nchain.rnc:4:1: z\n' '' --unused chain.rnc
# lines end by LF, CR LF or CR, and columns count characters
printf 'start = text\r\n\303\251 = text w = text\rx = text\ny = "\360\237\230\200" z = text' >ends.rnc
row unused_places 1 'ends.rnc:2:1: \303\251\nends.rnc:2:10: w\nends.rnc:3:1: x\nends.rnc:4:1: y\nends.rnc:4:9: z\n' '' --unused ends.rnc
printf 'start = text\nx = nothing\n' >refused.rnc
row unused_refused 1 '' 'refused.rnc:2:5: error: `nothing` is not defined\n    x = nothing\n        ^\n' --unused refused.rnc
# of a file that is used in two ways only what neither of them reaches; nested grammars have names of their own
printf 'start = element a { external "own.rnc", grammar { include "own.rnc" { start = y } } }\nx = empty\n' >scopes.rnc
printf 'start = x\nx = text\ny = empty\nz = empty\n\\start = empty\n' >own.rnc
row unused_scopes 1 'own.rnc:4:1: z\nown.rnc:5:1: start\nscopes.rnc:2:1: x\n' '' --unused scopes.rnc

# ---- origins
row origins 0 'start a.rnc:4:1\nkept a.rnc:2:3\nused a.rnc:5:1\n' '' --origins a.rnc
row origins_several 0 'start a.rnc:4:1\nstart c.rnc:2:1\nkept a.rnc:2:3\nused a.rnc:5:1\n' '' --origins a.rnc c.rnc
printf 'include "second.rnc"\nstart = x\nx |= element a { empty }\ninclude "third.rnc"\nx |= element e { empty }\n' >first.rnc
printf 'x |= element b { empty }\ninclude "third.rnc"\n' >second.rnc
printf 'x |= element c { empty }\nx |= element d { empty }\n' >third.rnc
row origins_in_order 0 'start first.rnc:2:1\nx second.rnc:1:1\nx third.rnc:1:1\nx third.rnc:2:1\nx first.rnc:3:1\nx first.rnc:5:1\n' '' --origins first.rnc
printf 'start = element a { external "outer.rnc" }\n\\div = text\n' >own-names.rnc
printf 'start = street, \\start\nstreet = element street { text }\n\\start = empty, city\ncity = text\n' >outer.rnc
"$program" own-names.rnc | sed -n 's/ = .*//p' >names.txt
"$program" --origins own-names.rnc | cut -d ' ' -f 1 | uniq >got.txt
printf 'default namespace\n' | cat - got.txt >with-namespace.txt
same origins_names names.txt with-namespace.txt
printf 'start = \\div\n\\div = text\n' >keyword.rnc
row origins_keyword 0 'start keyword.rnc:1:1\n\\div keyword.rnc:2:1\n' '' --origins keyword.rnc

# ---- faults of parts of a schema
room lint
printf 'name = element name { text, other* }\n' >part.rnc
row lint_part 0 '' '' --lint part.rnc
row lint_whole 0 '' '' --lint ../words/a.rnc
printf 'include "part.rnc"\nx = y\ny = x\nz |= nothing\nz &= empty\n' >faults.rnc
row lint_faults 1 '' 'faults.rnc:4:1: error: `z` is combined by |= here, and by &= in faults.rnc:5:1\n    z |= nothing\n    ^\n' --lint faults.rnc
printf 'include "part.rnc"\nx = y, nothing\ny = x\n' >loop.rnc
row lint_loop 1 '' 'loop.rnc:2:1: error: `x` refers to itself outside elements: by `y` in loop.rnc:3:1\n    x = y, nothing\n    ^\n' --lint loop.rnc
printf 'start = text\nx = y\ny = x\n' >unreached.rnc
row lint_unreached_loop 0 '' '' --lint unreached.rnc
printf 'include "none.rnc"\nx = y\n' >missing.rnc
row lint_missing 3 '' 'missing.rnc:1:9: error: none.rnc: no such file\n    include "none.rnc"\n            ^\n' --lint missing.rnc
printf 'x = xsd:string - (y)\n' >except.rnc
row lint_except 0 '' '' --lint except.rnc
printf 'x = element a { parent y }\n' >parent.rnc
row lint_parent 0 '' '' --lint parent.rnc
printf 'x = element a { text\n' >text.rnc
row lint_text 1 '' 'text.rnc:1:21: error: the schema ends too early; `}` is expected\n    x = element a { text\n                        ^\n' --lint text.rnc

# ---- standard input in place of a file
room input
mkdir schema
printf 'include "lib.rnc"\nstart = element a { grammar { start = parent b } }\n' >schema/main.rnc
printf 'b = element b { text }\n' >schema/lib.rnc
"$program" schema/main.rnc >whole.rnc
input=schema/main.rnc
row input_named 0 "$(cat whole.rnc)\n" '' --stdin-name schema/main.rnc -
printf 'include "lib.rnc"\nstart = b\n' >buffer
input=buffer
row input_listed 0 'lib.rnc schema/lib.rnc\nmain.rnc schema/main.rnc\n' '' --list --stdin-name schema/main.rnc -
row input_not_there 0 'lib.rnc schema/lib.rnc\nnew.rnc schema/new.rnc\n' '' --list --stdin-name schema/new.rnc -
row input_above 0 "lib.rnc $PWD/schema/lib.rnc\nnew.rnc $PWD/schema/none/../new.rnc\n" '' --list --stdin-name "$PWD/schema/none/../new.rnc" -
printf 'b = element b { empty }\n' >buffer
input=buffer
row input_included 0 'default namespace = ""\nstart = element a { main-1.start }\nb = element b { empty }\nmain-1.start = b\n' '' --stdin-name schema/lib.rnc schema/main.rnc -
row input_named_before 1 '' 'rnc-flat: error: -: another file has the same name\n' --stdin-name schema/lib.rnc schema/lib.rnc -
printf 'b = element b { , }\n' >buffer
row input_faulty 1 '' 'schema/lib.rnc:1:17: error: `,` can'"'"'t stand here; a pattern is expected\n    b = element b { , }\n                    ^\n' --lint --stdin-name schema/lib.rnc -

tell
