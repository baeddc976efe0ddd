# What is wrong with the words of a call; sourced by a launcher. Its tables say which words there are: `commands` and `options` have
# them in order, `least` and `most` the range of each option, and `meant` the options of each command.

# How many letters one word is from another: the letters to put in, to leave out and to change.
distance() {
    local from=$1 to=$2 i j before row=() last
    for ((j = 0; j <= ${#to}; j++)); do row[j]=$j; done
    for ((i = 1; i <= ${#from}; i++)); do
        last=${row[0]} row[0]=$i
        for ((j = 1; j <= ${#to}; j++)); do
            before=${row[j]}
            [ "${from:i-1:1}" = "${to:j-1:1}" ] || last=$((last + 1))
            ((row[j] + 1 >= last)) || last=$((row[j] + 1))
            ((row[j-1] + 1 >= last)) || last=$((row[j-1] + 1))
            row[j]=$last last=$before
        done
    done
    echo "${row[${#to}]}"
}

# The nearest of some words to a word, where one is near: one that begins as it does, or differs in a third of the letters.
nearest() {
    local word=${1,,} other steps best="" fewest=1000
    [ "${#word}" -le 30 ] && [ "${#word}" -gt 0 ] || return
    for other in "${@:2}"; do
        steps=$(distance "$word" "$other")
        [[ ${#word} -gt 1 && $other == "$word"* || $word == "$other"* ]] && steps=0
        ((steps >= fewest || steps * 3 > ${#other} + 2)) || best=$other fewest=$steps
    done
    echo "$best"
}

# The options among the words, each without its value; and the other words in `plain`.
read_words() {
    local word only_plain="" wants_value=""
    plain=() given=()
    for word; do
        if [ -n "$wants_value" ]; then
            wants_value=""
        elif [ -z "$only_plain" ] && [ "$word" = -- ]; then
            only_plain=yes
        elif [ -n "$only_plain" ] || [[ $word != -?* ]]; then
            plain+=("$word")
        else
            given+=("${word%%=*}")
            [[ $word == *=* ]] || ! is_one_of "$word" "${options[@]}" || wants_value=yes
        fi
    done
}

# Adds a line on each option of these words that has no meaning for their command, if there is one.
add_without_meaning() {
    local option found="" has=has
    read_words "$@"
    is_one_of "${plain[0]-}" "${commands[@]}" || return
    for option in "${given[@]}"; do
        ! is_one_of "$option" "${options[@]}" || is_one_of "$option" ${meant[${plain[0]}]} || found+=" and $option"
    done
    found=${found:5}
    [[ $found != *" and "* ]] || has=have
    [ -z "$found" ] || lines+=("$found $has no meaning for ${plain[0]}")
}

# What is wrong with a value of an option; nothing where it is one.
bad_value() {
    local digits
    [[ $2 =~ ^\+?[0-9]+$ ]] || { echo "$1 $(shown "$2"): not a number from ${least[$1]} to ${most[$1]}"; return; }
    digits=${2#+}
    digits=${digits#"${digits%%[!0]*}"}
    ((${#digits} <= 12 && ${digits:-0} >= least[$1] && ${digits:-0} <= most[$1])) ||
        echo "$1 $(shown "$2"): out of range, which is ${least[$1]} to ${most[$1]}"
}

# What is wrong with the options of these words; nothing where each is one, with its value, and stands once.
bad_option() {
    local option value wrong near seen=""
    while [ $# -gt 0 ] && [ "$1" != -- ]; do
        [[ $1 == -?* ]] || { shift; continue; }
        option=${1%%=*}
        ! is_one_of "$option" --help --version || { echo "$option takes no value"; return; }
        if ! is_one_of "$option" "${options[@]}"; then
            near=$(nearest "$option" "${options[@]}" --help --version)
            echo "there is no option $(shown "$option")${near:+; the nearest is $near}"
            return
        fi
        [[ $seen != *" $option "* ]] || { echo "$option stands twice"; return; }
        seen+=" $option "
        if [[ $1 == *=* ]]; then
            value=${1#*=}
        else
            [[ $# -gt 1 && $2 != -?* ]] || { echo "$option needs a number after it, from ${least[$option]} to ${most[$option]}"; return; }
            value=$2
            shift
        fi
        wrong=$(bad_value "$option" "$value")
        [ -z "$wrong" ] || { echo "$wrong"; return; }
        shift
    done
}

# What is wrong with a word that should be a command.
bad_command() {
    local near list
    if [ -f "$1" ]; then
        echo "$(shown "$1") is a file, and no word of a command: hand it over by < $(shown "$1")"
        return
    fi
    near=$(nearest "$1" "${commands[@]}")
    printf -v list ', %s' "${commands[@]}"
    [ -n "$near" ] && echo "there is no command $(shown "$1"); the nearest is $near" || echo "there is no command $(shown "$1"), only ${list:2}"
}

# What is wrong with these words, the first thing in their order; nothing where this finds none.
fault_of() {
    local list wrong
    read_words "$@"
    [ "${plain[0]-}" != help ] || plain=("${plain[@]:1}")
    if [ "${#plain[@]}" -gt 0 ] && ! is_one_of "${plain[0]}" "${commands[@]}"; then
        bad_command "${plain[0]}"
        return
    fi
    wrong=$(bad_option "$@")
    printf -v list ', %s' "${commands[@]}"
    if [ -n "$wrong" ]; then
        echo "$wrong"
    elif [ "${#plain[@]}" = 0 ]; then
        echo "no command is given: ${list:2}"
    elif [ -f "${plain[1]-}" ]; then
        bad_command "${plain[1]}"
    elif [ "${#plain[@]}" -gt 1 ]; then
        echo "$(shown "${plain[1]}") is a word too many: only options may stand after ${plain[0]}"
    fi
}
