#!/usr/bin/env bash
# Two sites keep a bundle in git, and `rnc-merge join` is the merge driver: whoever merges, both come to the same bytes.
# Usage: tests/merge-driver.sh [PROGRAM]   (without PROGRAM: crates/rnc_merge/out/rnc_merge)
set -u

source "$(dirname "${BASH_SOURCE[0]}")/rows.sh" rnc_merge "$@"
export HOME=$work GIT_CONFIG_NOSYSTEM=1
export GIT_AUTHOR_NAME=a GIT_AUTHOR_EMAIL=a@example.org GIT_COMMITTER_NAME=a GIT_COMMITTER_EMAIL=a@example.org

# contributes FOLDER NAME REV TEXT: the site of the folder adds a contribution to its bundle, and commits.
contributes() {
    printf '%b' "$4" >"$work/text.rnc"
    "$program" pack "$2" "$3" "$work/text.rnc" >"$work/one.set"
    "$program" join "$1/schema.set" "$work/one.set" >"$work/joined.set" && mv "$work/joined.set" "$1/schema.set"
    git -C "$1" commit -qam "$2 $3"
}

git init -q -b main one
"$program" pack main 1 - >one/schema.set <<<'include "name" start = element doc { name }'
echo '*.set merge=rnc-merge' >one/.gitattributes
git -C one add . && git -C one commit -qm first
git clone -q one two
for site in one two; do
    git -C $site config merge.rnc-merge.driver "'$program' join %A %B > %A.joined && mv %A.joined %A"
done

contributes one name 1 'name = element name { text }'
contributes two extra 1 'include "name" start |= element extra { empty }'
contributes two main 2 'include "name" start |= element doc { name }'
succeeds one_pulls git -C one pull -q --no-rebase --no-edit ../two main
succeeds two_pulls git -C two pull -q --no-rebase --no-edit ../one main
same same_bytes one/schema.set two/schema.set
succeeds all_are_there test "$("$program" list one/schema.set | cut -d ' ' -f 1,2 | tr '\n' ' ')" = 'extra 1 main 1 main 2 name 1 '

# The other way round: two merges what one has, and the same comes of it.
git clone -q one three
git clone -q one four
for site in three four; do
    git -C $site config merge.rnc-merge.driver "'$program' join %A %B > %A.joined && mv %A.joined %A"
done
contributes three name 2 'name = element name { xsd:token }'
contributes four note 1 'note = text'
cp three/schema.set three.set
cp four/schema.set four.set
succeeds three_pulls git -C three pull -q --no-rebase --no-edit ../four main
succeeds join_is_what_git_made test "$("$program" join three.set four.set | sha256sum)" = "$(sha256sum <three/schema.set)"
succeeds join_commutes test "$("$program" join four.set three.set | sha256sum)" = "$(sha256sum <three/schema.set)"

# What is no bundle is a conflict that git shows, and the file stays as it was.
echo 'no bundle' >four/schema.set
git -C four commit -qam broken
cp three/schema.set before.set
contributes three more 1 'more = text'
cp three/schema.set before.set
if git -C three pull -q --no-rebase --no-edit ../four main >got 2>&1; then
    fail 'no_bundle: it was merged'
else
    pass
fi
same no_bundle_stays three/schema.set before.set

tell
