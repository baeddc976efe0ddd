# What a launcher does beside running its program; sourced by ./pathway, which sets `name` to its own. All of it goes to standard
# error: standard output and the status are the program's.

# Lines for the end of a call, the most important first.
lines=()

say() {
    echo "$name: $1" >&2
}

# Says the lines: each of them at a terminal, and elsewhere the first.
tell() {
    local line
    for line in "${lines[@]}"; do
        say "$line"
        [ -t 2 ] || return 0
    done
}

is_one_of() {
    local word
    for word in "${@:2}"; do
        [ "$1" != "$word" ] || return 0
    done
    return 1
}

# Whether this process has a stream, by its number. Where nothing tells, it counts as there.
has_stream() {
    [ -L "/proc/$$/fd/$1" ] || [ ! -d "/proc/$$/fd" ]
}

# A word as a shell takes it, on one line.
as_word() {
    printf '%q' "$1"
}

# What a word looks like on a terminal: its beginning, where it is long.
shown() {
    as_word "${1:0:60}"
    ((${#1} <= 60)) || echo ".."
}

# Runs a program to its end, and sets `status`, and `closed` to the numbers of the streams that it has not. What ends this process
# ends the program too, so a signal does to both what it does to a program that runs alone. Where that cannot be arranged the program
# takes the place of this process, and nothing is told of its status.
launch() {
    local input=0
    closed=""
    command -v setpriv > /dev/null || exec "$@"
    has_stream 0 || input=- closed+=0
    has_stream 1 || closed+=1
    # A shell ignores this one, whatever it was told.
    trap 'kill -s QUIT $! 2> /dev/null' QUIT
    # Without these a program in the background would read nothing and ignore Ctrl-C.
    { trap - INT QUIT; exec setpriv --pdeathsig KILL -- "$@"; } <&$input &
    wait $! 2> /dev/null
    status=$?
    [ "$status" -le 128 ] || end_by $((status - 128))
}

# Ends this process by the signal that ended the program; or with the status of that, where a shell ignores it.
end_by() {
    ulimit -c 0
    kill -s "$1" $$
    exit $((128 + $1))
}

# What a stream is, by its number: its name, with the file that it is, if it is one.
stream() {
    local names=("standard input" "standard output") file
    file=$(readlink "/proc/$$/fd/$1" 2> /dev/null)
    [[ $file == /* ]] && echo "${names[$1]} ($(as_word "$file"))" || echo "${names[$1]}"
}

# The file that standard input is, by its shortest name; nothing where it is none.
input_file() {
    local file
    file=$(readlink "/proc/$$/fd/0" 2> /dev/null)
    [ -f "$file" ] && echo "${file#"$PWD"/}"
}

# Why standard input cannot be read: the system's error at one more try.
why_unread() {
    local error
    [[ $closed != *0* ]] || { echo "standard input is closed"; return; }
    error=$({ LC_ALL=C read -r -t 1 -N 1; } 2>&1)
    [[ $error == *": "* ]] && error=${error##*: } || error="it cannot be read"
    echo "$(stream 0): ${error%%$'\n'*}"
}

# Why standard output cannot be written. One more try would write to it, so this looks at what it is.
why_unwritten() {
    [[ $closed != *1* ]] || { echo "standard output is closed"; return; }
    echo "$(stream 1): $(write_error "$(readlink "/proc/$$/fd/1" 2> /dev/null)")"
}

write_error() {
    local flags
    flags=$(sed -n 's/^flags:[^0-9]*//p' "/proc/$$/fdinfo/1" 2> /dev/null)
    case $1 in
        /dev/full) echo "No space left on device" ;;
        pipe:* | socket:*) echo "whoever reads it has ended (Broken pipe)" ;;
        *)
            if [ $((8#${flags:-1} & 3)) = 0 ]; then
                echo "it is not open for writing (Bad file descriptor)"
            elif [ -p "$1" ]; then
                echo "whoever reads it has ended (Broken pipe)"
            elif [ -f "$1" ] && is_at_limit "$1"; then
                echo "it is as large as a file may be here, $(ulimit -f) KB (File too large)"
            elif [ -f "$1" ] && [ "$(df --output=avail "$1" 2> /dev/null | tail -n 1)" = 0 ]; then
                echo "No space left on device"
            else
                echo "the system takes no more of it"
            fi
            ;;
    esac
}

# Whether a file is within a block of the limit on the size of files.
is_at_limit() {
    local most
    most=$(ulimit -f)
    [ "$most" != unlimited ] && [ "$(stat -c %s "$1")" -ge $((most * 1024 - 1023)) ]
}

# Why there was too little memory.
why_no_memory() {
    local most
    most=$(ulimit -v)
    [ "$most" = unlimited ] && echo "memory ran out" || echo "memory ran out: this shell allows a program $most KB (ulimit -v)"
}
