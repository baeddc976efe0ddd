# Which program stands for the sources of a checkout; sourced by ./pathway and release/renew, which set `here` to its top.
built=$here/crates/pathway/out/pathway
released=$here/release/pathway
# The names of all that was looked at when the released program was found to be of these sources, written before the look.
compared=$here/release/out/compared

# The files and folders that decide programs.
deciding='crates/[^/]+/(src|specs|proofs)(/.*)?|crates\.txt|HANDLES'

# Whether the program was built in this checkout, and nothing that decides it has changed since.
is_built() {
    [ -x "$built" ] && [ -z "$(cd "$here" && find crates crates.txt HANDLES -name out -prune -o -cnewer "$built" \
        -regextype posix-extended -regex "$deciding" -print -quit 2>&1)" ]
}

# Whether the released program was built from these sources; where not, `why` says what differs.
is_released() {
    # What was looked at before is there, and has not changed since. A list without a name says nothing.
    [ -s "$compared" ] && [ -z "$(cd "$here" && find -files0-from "$compared" -maxdepth 0 -cnewer "$compared" -print -quit 2>&1)" ] && return
    local names
    why="no temporary file can be made"
    names=$(mktemp 2> /dev/null) || return
    (cd "$here" && find crates crates.txt HANDLES release -name out -prune -o \
        -regextype posix-extended -regex "$deciding|crates(/[^/]+)?|release/[^/]+" -print0) > "$names" 2> /dev/null
    if ! why=$("$here/release/compare"); then
        rm -f "$names"
        why=${why:-release/compare does not run}
        return 1
    fi
    # Where the checkout cannot be written to, each call compares.
    { mkdir -p "$here/release/out" && mv "$names" "$compared"; } 2> /dev/null || rm -f "$names"
}
