#!/usr/bin/env bash
# Tokens, trees and their include literals borrow what they were read from. A crate that keeps one longer is refused at just the
# lines that do so, and what is kept no longer is not refused. The compiler finds this before anything is proved. It reads the
# libraries that `rt ci` leaves in crates/*/out.
set -euo pipefail
cd "$(dirname "$0")/.."
room=$(mktemp -d)
trap 'rm -rf "$room"' EXIT

top=$PWD
kit=$(dirname "$(rt doc)")
mkdir "$room/src"
source=$room/src/lib.rt
cat > "$source" <<'RATTLE'
//! What borrows a source, in its life and past it.
#![tactic(auto)]

use rn_syntax::{Module, includes, parse};
use rn_text::{Token, tokens};
use std::alloc::Global;

pub fn token<'a>(alloc: Global, source: &'a [u8]) -> Option<Token<'a>> {
    let tokens = tokens(alloc, source).ok()?;
    tokens.first().copied()
}

pub fn tree<'a>(alloc: Global, source: &'a [u8]) -> Option<Module<'a>> {
    let tokens = tokens(alloc, source).ok()?;
    parse(alloc, tokens.as_slice()).ok()
}

pub fn included<'m>(alloc: Global, tree: &'m Module<'_>) -> Option<Vec<&'m str>> {
    includes(alloc, tree).ok()
}

pub fn token_past_its_source<'a>(alloc: Global) -> Option<Token<'a>> {
    let source = Vec::new(alloc);
    token(alloc, source.as_slice()) // refused
}

pub fn tree_past_its_source<'a>(alloc: Global) -> Option<Module<'a>> {
    let source = Vec::new(alloc);
    tree(alloc, source.as_slice()) // refused
}

pub fn literals_past_their_tree<'a>(alloc: Global, source: &'a [u8]) -> Option<Vec<&'a str>> {
    let tree = tree(alloc, source)?;
    included(alloc, &tree) // refused
}
RATTLE

words=(check --crate-name borrows src/lib.rt --extern "std=$kit/rlibs/std.rlib" -L "dependency=$kit/rlibs")
for crate in rn_text rn_syntax; do
    words+=(--extern "$crate=$top/crates/$crate/out/rlib/$crate.rlib" -L "dependency=$top/crates/$crate/out/rlib")
done
words+=(--antt-project "$kit/rattle/logic/antt-project.json" --logic-built "$kit/logic_built")
if said=$(cd "$room" && "$kit/bin/rattle" "${words[@]}" 2>&1); then
    echo "borrows: the crate was not refused"
    exit 1
fi
wanted=$(grep -n '// refused$' "$source" | cut -d: -f1)
found=$(sed -n 's/^src\/lib\.rt:\([0-9]*\):[0-9]*: error\[borrow-.*/\1/p' <<< "$said")
if [ "$found" != "$wanted" ] || [ "$(grep -c ': error' <<< "$said")" -ne 3 ]; then
    printf 'borrows: other lines were refused\n%s\n' "$said"
    exit 1
fi
echo "borrows: 3 refused, 3 not"
