#!/usr/bin/env bash
# Whether build.py takes up each crate that the program stands on once, behind those that it names, and no other crate, and
# whether it tells which crate is not built. A stand-in for the kit's rt notes what is taken up: nothing is proved.
#
#     bench/first_run.sh
set -eu
cd "$(dirname "$0")/.."
room=$(mktemp -d)
trap 'rm -rf "$room"' EXIT
export BUILT="$room/built" FAULTS="$room/faults" PATH="$room/bin:$PATH"
mkdir -p "$room/bin" "$room/checkout/.git/lanes-left"
cp build.py crates.txt HANDLES "$room/checkout"
for crate in crates/*; do
    mkdir -p "$room/checkout/$crate"
done
cat > "$room/bin/rt" << 'RT'
#!/usr/bin/env bash
[ "$1" = help ] && echo "rt ci NAME.." && exit
crate=$(basename "$PWD")
for below in $(sed -n "s/^$crate\( .*\)\?: *//p" ../../crates.txt); do
    [ ! -d "../$below" ] || [ -e "$BUILT/$below" ] || echo "$crate is taken up before $below is built" >> "$FAULTS"
done
[ ! -e "$BUILT/$crate" ] || echo "$crate is taken up twice" >> "$FAULTS"
[ "$crate" != "${REFUSED:-}" ] || { echo "$crate is not proved"; exit 1; }
touch "$BUILT/$crate"
[ "$1" = run ] || exit 0
mkdir out && cp "$0" out/pathway
exit 7
RT
chmod +x "$room/bin/rt"

# The crates that the program stands on, and itself.
expected=$(release/files | sed -n 's|^crates/\([^/]*\)/src/.*|\1|p' | sort -u)

fail() {
    echo "first run: $1" >&2
    exit 1
}
mkdir "$BUILT" && : > "$FAULTS"
python3 "$room/checkout/build.py" 2> "$room/said" || fail "build.py ends with status $?: $(cat "$room/said")"
[ ! -s "$FAULTS" ] || fail "$(cat "$FAULTS")"
[ "$(ls "$BUILT" | sort)" = "$expected" ] || fail "other crates than those that the program stands on are built"
[ -x "$room/checkout/crates/pathway/out/pathway" ] || fail "the program is not built in the checkout"
[ -z "$(ls "$room/checkout/.git")" ] || fail "lanes are left: $(ls "$room/checkout/.git")"
[ "$(grep -c "^pathway: proving crate" "$room/said")" = "$(wc -l <<< "$expected")" ] || fail "standard error does not tell each crate"

rm -r "$BUILT" "$room/checkout/crates/pathway/out" && mkdir "$BUILT"
status=0
REFUSED=pw_event python3 "$room/checkout/build.py" 2> "$room/said" || status=$?
[ "$status" = 6 ] || fail "build.py has status $status where a crate is not proved"
[ -z "$(ls "$room/checkout/.git")" ] || fail "lanes are left where a crate is not proved: $(ls "$room/checkout/.git")"
[ "$(tail -n 2 "$room/said")" = $'pw_event is not proved\npathway: the program is not built' ] ||
    fail "standard error does not tell which crate is not proved: $(cat "$room/said")"
