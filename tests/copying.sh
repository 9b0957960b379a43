#!/usr/bin/env bash
# copying.sh [PATCH..]: header sums that copy the header first, each with its proof. A patch (default: all of tests/copying/) is applied to a copy
# of the repository; the library must be proved and built there, and tests/stack.sh must then refuse it, saying what stands behind 'refused:' in the
# patch. Run by hand, some minutes each: it is no part of the gate.
set -euo pipefail
top=$(cd "$(dirname "$0")/.." && pwd)
room=$(mktemp -d)
trap 'rm -rf "$room"' EXIT
[ $# -gt 0 ] || set -- "$top"/tests/copying/*.patch
failed=0
for patch in "$@"; do
    name=$(basename "$patch" .patch)
    copy=$room/$name
    mkdir "$copy"
    (cd "$top" && tar -c --exclude='crates/*/out' crates crates.txt docs include rust samples tests) | tar -x -C "$copy"
    # In its folder, so that the crates below are proved first.
    if ! (cd "$copy" && git apply - && cd crates/ch11 && rt lib --cpu=x86-64 </dev/null) <"$patch" >"$copy/out" 2>&1; then
        echo "$name: NOT BUILT: $(tail -n 1 "$copy/out")"
        failed=1
    elif (cd "$copy" && bash tests/stack.sh crates/ch11/out/libch11.a) >"$copy/out" 2>&1; then
        echo "$name: NOT REFUSED"
        failed=1
    elif ! grep -q '^refused: ' "$patch"; then
        echo "$name: DOES NOT SAY WHY IT IS REFUSED"
        failed=1
    else
        while read -r what; do
            if grep -qF -- "$what" "$copy/out"; then
                echo "$name: refused: $what"
            else
                echo "$name: NOT REFUSED FOR: $what"
                failed=1
            fi
        done < <(sed -n 's/^refused: //p' "$patch")
    fi
    rm -rf "$copy"
done
exit $failed
