# The words of `pathway`, and its pages of help; sourced by ./pathway where it has to tell of them.
commands=(run trial check verify gen disc trail status expand)
options=(--workers --events --seed --terms --at)
declare -gA least=([--workers]=1 [--events]=1 [--seed]=0 [--terms]=1 [--at]=0)
declare -gA most=([--workers]=16 [--events]=500000 [--seed]=4294967295 [--terms]=64 [--at]=500000)
declare -gA preset=([--workers]=2 [--events]=100000 [--seed]=1 [--terms]=8 [--at]=0)
declare -gA meant=(
    [run]="--workers --events" [disc]="--workers --events" [trail]="--workers --events --at" [trial]="--workers --seed --terms"
    [gen]="--seed --terms" [status]="--at" [check]="" [verify]="" [expand]=""
)
declare -gA does=(
    [run]="runs a deck and prints the report of the run"
    [trial]="runs a generated deck and prints the records that it leaves"
    [check]="tells whether a deck has a fault, and runs nothing"
    [verify]="replays the log that stands in a deck and prints its report"
    [gen]="prints a generated deck"
    [disc]="runs a deck over a pair of discs, which fail by the lines after its ?END"
    [trail]="runs a deck over an audit trail, crashes it, and prints the records that were recovered"
    [status]="counts the first entries of the log that stands in a deck"
    [expand]="prints the messages and marks of a schedule of several systems"
)
declare -gA tells=(
    [--workers]="how many workers run the deck" [--events]="how many entries the log may have"
    [--seed]="what the entries of the generated deck are drawn from" [--terms]="how many terminals the generated deck has"
    [--at]="how many entries are counted (status); which call of the disk fails, 0 for none (trail)"
)
# What each command reads from standard input, and its own statuses.
declare -gA reads=(
    [run]="a deck" [trial]="nothing" [check]="a deck" [verify]="a deck" [gen]="nothing" [disc]="a deck, and the disc script after its ?END"
    [trail]="a deck" [status]="a deck" [expand]="a schedule"
)
of_run="0  the run is finished, and each terminal stopped or had no more entries
1  the run is finished, and a terminal ended otherwise
3  the log has as many entries as it may, and the run is not finished"
of_refusal="2  the deck has a fault: its first is printed"
of_log="8  an entry of the log is no step: its number is printed"
declare -gA ends=(
    [run]="$of_run
$of_refusal"
    [trial]="$of_run"
    [check]="0  the deck has no fault: DECK OK is printed
$of_refusal"
    [verify]="0  each entry of the log is a step
$of_refusal
$of_log"
    [gen]="0  the deck is printed"
    [disc]="$of_run
$of_refusal, or else that of the disc script
9  both members of the pair failed: nothing is printed"
    [trail]="$of_run
   (0 also where the disk stopped at its call --at)
$of_refusal"
    [status]="0  each of these entries is a step
$of_refusal
$of_log"
    [expand]="0  the schedule has no fault
2  it has one: its line is printed"
)
of_all="4  the input cannot be read        6  memory ran out
5  the output cannot be written    7  the words are not those of a command: the usage line is printed"
declare -gA examples=(
    [run]="./pathway run --workers 4 < decks/orders.deck" [trial]="./pathway trial --seed 7 --terms 16"
    [check]="./pathway check < decks/orders.deck" [verify]="./pathway verify < decks/replayed.deck"
    [gen]="./pathway gen --seed 7 --terms 16 > generated.deck" [disc]="./pathway disc < decks/held.deck"
    [trail]="./pathway trail --at 9 < decks/trail.deck" [status]="./pathway status --at 19 < decks/replayed.deck"
    [expand]="./pathway expand < decks/restarted.schedule"
)
statuses="0  done, and nothing is wrong
1  the run is finished, and a terminal ended otherwise than by STOP RUN or for want of entries
2  the deck, the disc script or the schedule has a fault: its first is printed
3  the log has as many entries as it may, and the run is not finished
4  the input cannot be read
5  the output cannot be written
6  memory ran out
7  the words are not those of a command: the usage line is printed
8  an entry of the log is no step: its number is printed
9  disc: both members of the pair failed: nothing is printed"
usage="USAGE: pathway run|trial|check|verify|gen|disc|trail|status|expand [--workers N] [--events N] [--seed N] [--terms N] [--at N]"

indented() {
    local line
    while IFS= read -r line; do echo "    $line"; done <<< "$1"
}

# A row for each of these options: its range, its default, and what it says.
option_rows() {
    local option
    for option; do
        printf '    %-9s  %-17s  %-7s  %s\n' "$option" "${least[$option]} to ${most[$option]}" "${preset[$option]}" "${tells[$option]}"
    done
}

general_page() {
    local command
    echo "pathway COMMAND [--workers N] [--events N] [--seed N] [--terms N] [--at N]"
    echo
    echo "The commands (./pathway help COMMAND tells more of one):"
    for command in "${commands[@]}"; do
        printf '    %-7s  %s\n' "$command" "${does[$command]}"
    done
    echo
    echo "The options, with their values and defaults:"
    option_rows "${options[@]}"
    echo
    echo "The statuses:"
    indented "$statuses"
    echo
    echo "An example: ./pathway run < decks/takeover.deck | tools/summary"
    echo "More: docs/guide/COMMANDS.md"
}

# The page of one command.
command_page() {
    local command=$1 option words=""
    for option in ${meant[$command]}; do words+=" [$option N]"; done
    echo "pathway $command$words"
    echo
    echo "It ${does[$command]}. From standard input it reads ${reads[$command]}."
    echo
    if [ -n "$words" ]; then
        echo "Its options, with their values and defaults:"
        option_rows ${meant[$command]}
    else
        echo "It has no options."
    fi
    echo
    echo "Its statuses:"
    indented "${ends[$command]}"
    indented "$of_all"
    echo
    echo "An example: ${examples[$command]}"
}

# Which program this is: the commit of the checkout, the release, and the kit that proved it.
version_page() {
    local commit release=$here/release/README.md
    commit=$(git -C "$here" log -1 --format='%h of %cs' 2> /dev/null) || commit="not known: this is no checkout of git"
    echo "commit   $commit"
    if is_built; then
        echo "program  crates/pathway/out/pathway, which was built here"
    elif is_released; then
        echo "program  release/pathway, which was built from these sources"
    else
        echo "program  none yet: the released one is not of these sources ($why)"
    fi
    echo "release  $(sed -n 's/^program *//p' "$release")"
    echo "sources  $(sed -n 's/^sources *//p' "$release")"
    echo "kit      $(sed -n 's/^kit *//p' "$release")"
}

# Whether these words ask for help, or for the version; `asked` is then the command that they ask about, or the word itself.
asks() {
    local word
    asked=""
    [ "${1-}" = help ] && [ $# -le 2 ] && { [ $# = 1 ] || is_one_of "$2" "${commands[@]}"; } && { asked=${2:-all}; return; }
    for word; do
        case $word in
            --version) asked=version; return ;;
            --help | -h) asked=${asked:-all} ;;
        esac
    done
    [ -n "$asked" ] || return
    for word; do
        is_one_of "$word" "${commands[@]}" && { asked=$word; return; }
    done
    return 0
}

page() {
    case $asked in
        version) version_page ;;
        all) general_page ;;
        *) command_page "$asked" ;;
    esac
}
