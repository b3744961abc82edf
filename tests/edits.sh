#!/usr/bin/env bash
# Tries the wrong bodies of tests/edits: the prover has to refuse each.
#   tests/edits.sh [--read] [CRATE..]
# The gate tries the edits in the folders crates/CRATE/must-fail. Those of tests/edits/CRATE are edits of the same form, of crates whose
# proof takes a minute or more, as trying each of them does. Run this for a crate that you have changed. With --read no prover is run:
# each edit only has to apply, that is each text that it replaces is in its file exactly once. The gate does that much. The status is 0
# if every edit passed.
set -u
cd "$(dirname "$0")/.." || exit 1
reads_only=false
if [ "${1:-}" = --read ]; then
    reads_only=true
    shift
fi
[ $# -gt 0 ] || set -- $(cd tests/edits && printf '%s\n' *)

python3 - "$@" <<'END' || exit 1
import pathlib, sys

def fault_of(edit, crate):
    texts, path, old, replaced = {}, None, None, 0
    for line in edit.read_text().splitlines():
        if line.startswith("file: "):
            path = crate / line.removeprefix("file: ")
        elif line.startswith("old: "):
            old = line.removeprefix("old: ")
        elif line.startswith("new:"):
            text = texts.get(path) or path.read_text()
            if text.count(old) != 1:
                return f"a text to be replaced is in {path} {text.count(old)} times"
            texts[path] = text.replace(old, line.removeprefix("new:").removeprefix(" "))
            replaced += 1
    return None if replaced else "it replaces nothing"

failed = False
for name in sys.argv[1:]:
    edits = sorted(pathlib.Path("tests/edits", name).glob("*.edit"))
    faults = [(it, fault_of(it, pathlib.Path("crates", name))) for it in edits]
    if not edits:
        print(f"tests/edits/{name} has no edit")
    for edit, fault in faults:
        if fault:
            print(f"{edit}: {fault}")
    failed = failed or not edits or any(it for _, it in faults)
sys.exit(failed)
END
! $reads_only || exit 0

# `rt must-fail` reads the edits of a crate's own folder. While it runs, those of tests/edits are there in place of the gate's.
room=$(mktemp -d)
put_back() {
    local crate
    for crate in "$@"; do
        [ -d "$room/$crate" ] || continue
        rm -rf "crates/$crate/must-fail"
        rmdir "$room/$crate" 2>/dev/null || mv "$room/$crate" "crates/$crate/must-fail"
    done
    rm -rf "$room"
}
trap 'put_back "$@"' EXIT
trap 'exit 1' INT TERM
for crate in "$@"; do
    mkdir -p "crates/$crate/must-fail"
    mv "crates/$crate/must-fail" "$room/$crate"
    mkdir "crates/$crate/must-fail"
    cp "tests/edits/$crate"/*.edit "crates/$crate/must-fail/"
done
rt must-fail "$@"
