#!/bin/sh
# Tries the wrong bodies that the merge gate leaves out: lays the edits of tools/more-edits over a copy of the tree in place of those of the crates, and has
# `rt must-fail` see that the prover refuses each. With names of crates it tries theirs alone. It proves the crates below them once, and each crate once more for
# its edits, which takes hours for all of them. So it is run by hand before a release.
# The last line is 'N passed, M failed'; the status is 1 if one failed.
here=$(CDPATH='' cd -- "$(dirname -- "$0")/.." && pwd)
room=$(mktemp -d) || exit 1
trap 'rm -rf "$room"' EXIT
cd "$here" || exit 1
git ls-files -z | tar -c --null -T - | tar -x -C "$room" || exit 1
cd "$room" || exit 1
rm -rf crates/*/must-fail
[ $# -gt 0 ] || set -- $(ls tools/more-edits)
wanted=0
for crate; do
    mkdir -p "crates/$crate/must-fail"
    cp "tools/more-edits/$crate/"*.edit "crates/$crate/must-fail/" || exit 1
    wanted=$((wanted + $(ls "tools/more-edits/$crate" | wc -l)))
done
rt must-fail "$@" >log 2>&1
grep -a -v '^rt: .* proved' log
passed=$(grep -a -c '^rt: must-fail .*: refused, as it must be' log)
echo "$passed passed, $((wanted - passed)) failed"
[ "$passed" = "$wanted" ]
