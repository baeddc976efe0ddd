#!/usr/bin/env bash
# Whether the prover refuses the edits that the gate does not try, those of bench/edits (CONTRIBUTING.md): of the crates that are
# named, or of all that have some. It works in a clone of what is committed, with bench/edits/CRATE in place of what stands in
# crates/CRATE/must-fail, prints a line for each edit, and fails where one is not refused. `rt must-fail` proves the libraries
# below a crate first, one after another: that takes long, some hours for all of them from nothing. It is no part of the gate.
#
# With --fit it proves nothing and takes no second: it says which edits, of bench/edits and of crates, do not fit the files
# that they change, and fails where there is one. Each `old:` has to stand once in its file, as the pairs before it left it.
#
#     bench/edits.sh [CRATE..]
#     bench/edits.sh --fit
set -eu
cd "$(dirname "$0")/.."

fit() {
    python3 - << 'END'
import glob, os, re, sys

NAME = r"[A-Za-z0-9_-][A-Za-z0-9_.-]*\.edit"


def misfit(edit, crate):
    """Why an edit does not fit its crate, as the kit would say it; None where it does."""
    path, old, texts, pairs = "", None, {}, 0
    try:
        with open(edit, encoding="utf-8") as file:
            lines = file.read().split("\n")
    except (OSError, UnicodeDecodeError):
        return "it cannot be read"
    for line in lines:
        if line.startswith("file: "):
            path = line[len("file: "):].strip()
            if os.path.normpath(path) != path or not path.startswith(("src/", "specs/", "proofs/")):
                return f"{path} is no file below src/, specs/ or proofs/"
        elif line.startswith("old: "):
            old = line[len("old: "):]
        elif line.startswith("new:"):
            new = re.sub(r"\A ", "", line[len("new:"):])
            if not path or not old:
                return "a `new:` stands before any `file:` or `old:`"
            try:
                if path not in texts:
                    with open(f"crates/{crate}/{path}", encoding="utf-8") as file:
                        texts[path] = file.read()
            except (OSError, UnicodeDecodeError):
                return f"there is no file crates/{crate}/{path}"
            if (found := texts[path].count(old)) != 1:
                return f"its `old:` stands {found} times, and not once, in crates/{crate}/{path}: {old.strip()}"
            if old == new:
                return f"it changes nothing: {old.strip()}"
            texts[path] = texts[path].replace(old, new)
            old, pairs = None, pairs + 1
    if old is not None:
        return "its last `old:` has no `new:`"
    return None if pairs else "it has no `old:` and `new:`"


fits = {}
for edit in sorted(glob.glob("crates/*/must-fail/*") + glob.glob("bench/edits/*/*")):
    crate = edit.split("/")[1 if edit.startswith("crates/") else 2]
    name = os.path.basename(edit)
    if name.endswith(".md"):
        continue
    why = misfit(edit, crate) if re.fullmatch(NAME, name) else "its name is not of letters, digits, _, - and . before .edit"
    if not why and (crate, name) in fits:
        why = "an edit of this name stands in both folders"
    fits[crate, name] = fits.get((crate, name), True) and not why
    if why:
        print(f"{edit}: {why}")
failed = sum(not it for it in fits.values())
print(f"{len(fits) - failed} passed, {failed} failed")
sys.exit(bool(failed))
END
}

if [ "${1:-}" = --fit ]; then
    fit
    exit
fi

room=$(mktemp -d)
trap 'rm -rf "$room"' EXIT
git clone -q . "$room/clone"
cd "$room/clone"
[ "$#" -gt 0 ] || set -- $(cd bench/edits && echo *)
for crate; do
    [ -d "bench/edits/$crate" ] || { echo "edits.sh: bench/edits has no edits of $crate, as committed" >&2; exit 2; }
done

passed=0
failed=0
for crate; do
    rm -rf "crates/$crate/must-fail"
    cp -r "bench/edits/$crate" "crates/$crate/must-fail"
    rt must-fail "$crate" > "$room/said" 2>&1 || true
    for edit in "crates/$crate/must-fail"/*.edit; do
        label="must-fail $crate/$(basename "$edit")"
        if grep -F "rt: $label: refused, as it must be" "$room/said"; then
            passed=$((passed + 1))
        else
            failed=$((failed + 1))
            grep -F "rt: $label: " "$room/said" || echo "$label: not tried: $(tail -n 1 "$room/said")"
        fi
    done
done
echo "$passed passed, $failed failed"
[ "$failed" -eq 0 ]
