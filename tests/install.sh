#!/usr/bin/env bash
# Installs the programs below folders of its own and takes them away again; compares completions with what the programs take; runs the examples;
# compiles both programs without a proof.
# Usage: tests/install.sh [PROGRAM]   (rnc-flat; without PROGRAM: crates/rnc_flat/out/rnc_flat)
set -u

top=$(cd "$(dirname "${BASH_SOURCE[0]}")/.." && pwd)
source "$top/tests/rows.sh" rnc_flat "$@"

# ---- what is installed, and taken away
wanted="bin/rnc-flat bin/rnc-merge
share/bash-completion/completions/rnc-flat share/bash-completion/completions/rnc-merge
share/fish/vendor_completions.d/rnc-flat.fish share/fish/vendor_completions.d/rnc-merge.fish
share/man/man1/rnc-flat.1 share/man/man1/rnc-merge.1
share/zsh/site-functions/_rnc-flat share/zsh/site-functions/_rnc-merge"
installed() { (cd "$1" && find . -type f -printf '%P\n' | sort | tr '\n' ' '); }
list=$(printf '%s' "$wanted" | tr ' ' '\n' | sort | tr '\n' ' ')

# lists NAME FOLDER WANTED: these are the files below the folder.
lists() {
    local got
    got=$(installed "$2")
    if [ "${got% }" = "${3% }" ]; then pass; else fail "$1: $got"; fi
}

# A checkout of its own, in which both programs are built.
mkdir checkout && cp -r "$top/install" "$top/man" checkout/ && mkdir checkout/bin
cp "$program" checkout/bin/rnc-flat && cp "$program" checkout/bin/rnc-merge
succeeds relative_prefix checkout/install here
lists relative_prefix_files here "$list"
succeeds below_destdir env DESTDIR="$PWD/there" checkout/install /usr
lists below_destdir_files there/usr "$list"
succeeds program_installed here/bin/rnc-flat --version
succeeds uninstalled checkout/install --uninstall here
lists uninstalled_files here ""
succeeds uninstalled_destdir env DESTDIR="$PWD/there" checkout/install --uninstall /usr
lists uninstalled_destdir_files there ""
succeeds install_help checkout/install --help
if checkout/install a b >said 2>&1 || [ $? -ne 2 ]; then fail two_prefixes; else pass; fi
rm checkout/bin/rnc-merge
if checkout/install here >said 2>&1; then fail lacking_program; else pass; fi
lists lacking_program_files here ""
succeeds build_help "$top/build" --help

# ---- completions have the options of the help, and shells read them
"$program" --help | grep -oE '^ +(-[a-zA-Z], )?--[a-z-]+' | grep -oE -- '--?[a-zA-Z-]+' | sort >help.options
"$top/man/completions" --options rnc-flat | sort >own.options
same options_completed help.options own.options
has() { command -v "$1" >/dev/null; }
for name in rnc-flat rnc-merge; do
    for shell in bash zsh fish; do
        "$top/man/completions" $shell $name >completion.$shell.$name
        if has $shell; then succeeds "${shell}_completion_$name" $shell -n completion.$shell.$name; fi
    done
done

# completes NAME WANTED PROGRAM WORD..: bash, which parts words at = and :, offers these for the last word.
completes() {
    local name=$1 wanted=$2 got
    shift 2
    got=$(bash -c 'source "completion.bash.$1"; COMP_WORDS=("$@"); COMP_CWORD=$(($# - 1)); _${1/-/_}; echo "${COMPREPLY[*]}"' - "$@")
    if [ "$got" = "$wanted" ]; then pass; else fail "$name: $got"; fi
}
mkdir vendor && touch written.rnc
completes bash_option --map rnc-flat --ma
completes bash_command withdraw rnc-merge wi
completes bash_file written.rnc rnc-flat -o wr
completes bash_folder vendor rnc-flat --root ve
completes bash_map '' rnc-flat --map ve
completes bash_map_folder vendor rnc-flat --map http : //x/ = ve
completes bash_word 'auto always' rnc-flat --color a
completes bash_word_behind_equals never rnc-flat --color = n
completes bash_file_behind_equals written.rnc rnc-flat --output = wr
completes bash_nothing_behind_equals 'text json' rnc-flat --format =

# reads NAME WANTED WORD..: what the command writes.
reads() {
    local name=$1 wanted=$2 got
    shift 2
    got=$("$@" 2>&1)
    if [ "$got" = "$wanted" ]; then pass; else fail "$name: $got"; fi
}
if has zsh; then
    reads zsh_options "(--unused)--unused[Write where the definitions are that the start doesn't reach]
(-o --output)--output=[Write to this file, whole or not at all]:file:_files
*--map=[Look in a folder for what a URI refers to]:PREFIX=FOLDER:{compset -P '*=' && _files -/}
(--color)--color=[When messages are in colours]:word:(auto always never)
*:file:_files" zsh -fc '_arguments() { for it in "--unused[" "--output=" "--map=" "--color=" "*:"; do print -r -- ${(M)@:#*$it*}; done }
        source completion.zsh.rnc-flat'
fi
if has fish; then
    offers() { fish --no-config -c "source completion.fish.$1; complete -C '$1 $2'"; }
    reads fish_option "$(printf "%s\t%s" --unused "Write where the definitions are that the start doesn't reach")" offers rnc-flat --un
    reads fish_word "$(printf '%s\tWhen messages are in colours\n' always auto)" offers rnc-flat '--color a'
    reads fish_map_folder http://x/=vendor/ offers rnc-flat '--map http://x/=ve'
    reads fish_command "$(printf 'withdraw\tWrite the bundle of one withdrawal')" offers rnc-merge wi
fi

# ---- the manual pages have no fault, and an entry for each line of rnc-merge
for page in rnc-flat rnc-merge; do
    if command -v mandoc >/dev/null; then
        if [ -z "$(mandoc -T lint -W style "$top/man/$page.1")" ]; then pass; else fail "mandoc: $(mandoc -T lint -W style "$top/man/$page.1" | head -2)"; fi
    fi
    if command -v groff >/dev/null; then
        if [ -z "$(groff -ww -man -z "$top/man/$page.1" 2>&1)" ]; then pass; else fail "groff: $(groff -ww -man -z "$top/man/$page.1" 2>&1 | head -2)"; fi
    fi
done
for line in usage 'usage: REV' 'usage: \\-' read large write Memory BadName TooLong Full Encoding Lexical Deep Syntax Prefix Builtin ContextValue Except \
    Conflict Missing Cycle Instances Override PlainTwice MixedMethods NoStart Undefined Recursive NameClass OutputTooLarge OutputTooDeep; do
    if grep -qE "^\.B[IR]? \"?$line( |\"|$)" "$top/man/rnc-merge.1"; then pass; else fail "no entry: $line"; fi
done
for line in Magic Header Order Digest Truncated Trailing; do
    if grep -qE "^\.BI \"bundle \" \"N \" $line" "$top/man/rnc-merge.1"; then pass; else fail "no entry: $line"; fi
done

# ---- the examples
export RNC_FLAT=$program
"$top/examples/run" >run.out 2>run.err
if [ $? -eq 0 ] && [ "$(grep -c '^== examples/' run.out)" -eq 3 ] && [ "$(grep -c '^start = ' run.out)" -eq 3 ]; then pass; else fail "examples: $(tail -2 run.err)"; fi
printf 'default namespace = ""\nstart = doc\ndoc = element a { empty } | element b { text }\n' >two.wanted
"$top/examples/run" "$top/examples/two" >two.out
same folder_of_examples two.wanted two.out
mkdir -p packed/part && printf 'include "part/x.rnc"\nstart = x\n' >packed/main.rnc && printf 'x = text\n' >packed/part/x.rnc
"$top/examples/pack-folder" packed >packed.set
if [ "$(grep -a -c '^module \(main\|part/x\).rnc 1 ' packed.set)" -eq 2 ]; then pass; else fail pack_folder; fi
printf 'include "http://m/x.rnc"\nstart = x\n' >packed/main.rnc
succeeds pack_folder_map "$top/examples/pack-folder" packed --map http://m/=packed/part
if "$top/examples/pack-folder" checkout >said 2>&1; then fail pack_nothing; else pass; fi

# ---- compiled without a proof: a line for each crate, and both programs
mkdir alone && cp "$top/build" "$top/crates.txt" alone/ && ln -s "$top/bench" "$top/crates" "$top/tests" alone/
succeeds compiled_alone alone/build --unproved
mv said alone.said
for crate in $(sed -n 's/^\(rnc*_[a-z]*\):.*/\1/p' "$top/crates.txt"); do
    if grep -qE "^$crate +[0-9]+ functions compiled, [0-9]+ s$" alone.said; then pass; else fail "no line: $crate"; fi
done
if alone/bin/rnc-flat --version | grep -q '(not proved on this machine)$'; then pass; else fail alone_version; fi
alone/bin/rnc-flat "$top"/examples/two/*.rnc >alone.out
same alone_flat two.wanted alone.out
for name in a b; do alone/bin/rnc-merge pack $name 1 "$top/examples/two/$name.rnc" >$name.set; done
alone/bin/rnc-merge print b.set a.set >alone.out
same alone_merge two.wanted alone.out

tell
