# A PostgreSQL of the benches' own, in the temporary folder `work`, over a socket there; sourced by bench/trial.sh and bench/store.sh.
server=
finish() {
    [ -z "$server" ] || as_owner "$bin/pg_ctl" -D "$work/base" -m immediate stop > "$work/stop.log" 2>&1 || true
    rm -rf "$work"
}

# PostgreSQL refuses to run as root.
as_owner() {
    if [ "$(id -u)" -eq 0 ]; then runuser -u postgres -- "$@"; else "$@"; fi
}

# Where the programs of PostgreSQL are, none where it isn't installed.
programs() {
    local folder
    for folder in "$(pg_config --bindir 2> /dev/null || true)" /usr/lib/postgresql/*/bin; do
        if [ -x "$folder/initdb" ] && [ -x "$folder/pgbench" ]; then echo "$folder"; return; fi
    done
}

# Starts it, with fsync and synchronous commits on or off.
start_server() {
    bin=$(programs)
    [ -n "$bin" ] || return 1
    mkdir "$work/socket"
    if [ "$(id -u)" -eq 0 ]; then chmod 755 "$work"; install -d -o postgres "$work/base"; chown postgres "$work/socket"; fi
    as_owner "$bin/initdb" -A trust -D "$work/base" > "$work/initdb.log" 2>&1 || { cat "$work/initdb.log" >&2; return 1; }
    as_owner "$bin/pg_ctl" -w -D "$work/base" -l "$work/socket/log" \
        -o "-k $work/socket -c listen_addresses='' -c fsync=$1 -c synchronous_commit=$1 -c max_connections=100" start \
        > "$work/start.log" 2>&1 || { cat "$work/start.log" >&2; return 1; }
    server=yes
}

query() { as_owner "$bin/psql" -q -h "$work/socket" -d postgres -c "$1"; }
