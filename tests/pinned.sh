#!/usr/bin/env bash
# pinned.sh [EDIT..]: wrong programs whose definition is changed together with the code, and with what of the proofs below had to follow. Each edit
# (default: all of tests/pinned/) is applied to a copy of the repository, and the crate that it names behind 'refused:' must be the first that the
# check refuses. Run by hand, some minutes each: it is no part of the gate.
#
# An edit has the form of a must-fail edit, its files named from the repository's root; lines behind 'old:' and 'new:' are single lines of the file.
set -euo pipefail
top=$(cd "$(dirname "$0")/.." && pwd)
room=$(mktemp -d)
trap 'rm -rf "$room"' EXIT
[ $# -gt 0 ] || set -- "$top"/tests/pinned/*.edit
failed=0
for edit in "$@"; do
    name=$(basename "$edit" .edit)
    copy=$room/$name
    mkdir "$copy"
    (cd "$top" && tar -c --exclude='crates/*/out' crates crates.txt) | tar -x -C "$copy"
    expected=$(sed -n 's/^refused: //p' "$edit")
    if ! python3 - "$edit" "$copy" <<'P'; then echo "$name: BAD EDIT"; failed=1; continue; fi
import sys
edit, copy = sys.argv[1:]
path = old = None
for line in open(edit, encoding='utf-8'):
    line = line.rstrip('\n')
    if line.startswith('file: '):
        path = copy + '/' + line[6:]
    elif line.startswith('old: '):
        old = line[5:]
    elif line.startswith('new:'):
        text = open(path, encoding='utf-8').read()
        if text.count('\n' + old + '\n') != 1:
            sys.exit(f'{path}: {text.count(old)} times: {old}')
        open(path, 'w', encoding='utf-8').write(text.replace('\n' + old + '\n', '\n' + line[5:].replace('\\n', '\n') + '\n'))
P
    # A check in the crate's folder checks those below it first, and ends at the first that is refused.
    if (cd "$copy/crates/$expected" && rt check) >"$copy/out" 2>&1 </dev/null; then
        found=none
    elif lower=$(grep -oE '^rt: the library [a-z0-9_]+ did not build' "$copy/out"); then
        found=$(cut -d' ' -f4 <<<"$lower")
    elif grep -q '^logic=not-proved' "$copy/out"; then
        found=$expected
    else
        found=
    fi
    first=$(grep -E ': error|^fn .*: (not proved|no proof)' "$copy/out" | head -n 1 | cut -c1-200) || true
    if [ "$found" = "$expected" ]; then
        echo "$name: refused in $found: $first"
    else
        echo "$name: REFUSED IN ${found:-?}, not in $expected: $first"
        failed=1
    fi
    [ -z "${KEEP:-}" ] || cp "$copy/out" "$KEEP/$name.out"
    rm -rf "$copy"
done
exit $failed
