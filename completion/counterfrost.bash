# Completion of the command counterfrost for bash. It needs nothing but bash: where the package bash-completion is installed it finds this
# file by itself, and elsewhere one says `. counterfrost.bash`.

# Offers those of the words behind the first one that begin with it. A word that ends with a colon waits for its number, so that no space is
# put behind it.
_counterfrost_words() {
    local begun=$1 word
    shift
    for word; do
        if [[ $word == "$begun"* ]]; then COMPREPLY+=("$word"); fi
    done
    if [[ ${COMPREPLY[*]} == *: ]]; then compopt -o nospace 2>/dev/null; fi
}

# Offers the files and folders whose names begin so. Where there are none bash looks itself, which knows of quotes and of ~.
_counterfrost_files() {
    local name
    compopt -o filenames -o default 2>/dev/null
    while IFS= read -r name; do
        COMPREPLY+=("$name")
    done < <(compgen -f -- "$1")
}

_counterfrost() {
    local commands=(list repair map read write fill correct help version) option='' words=() rest=${COMP_LINE:0:COMP_POINT} gap piece i

    # The words up to the cursor. Bash parts the line at colons too: pieces without a space between them are one word.
    for ((i = 0; i <= COMP_CWORD; i++)); do
        gap=${rest%%[! $'\t']*} rest=${rest#"${rest%%[! $'\t']*}"} piece=${COMP_WORDS[i]}
        if ((i == COMP_CWORD)); then piece=$rest; fi
        rest=${rest#"$piece"}
        if [[ $gap || $i == 0 ]]; then words+=("$piece"); else words[-1]+=$piece; fi
    done
    local command=${words[1]-} current=${words[-1]}

    COMPREPLY=()
    if ((${#words[@]} < 3)); then
        _counterfrost_words "$current" "${commands[@]}"
        return
    fi

    # How many plain words stand between the command and this one.
    local plain=0
    for ((i = 2; i < ${#words[@]} - 1; i++)); do
        if [[ ${words[i]} != --* ]]; then plain=$((plain + 1)); fi
    done

    case $command in
    repair | write | fill | correct) option=--force ;;
    map) option=--text ;;
    esac
    if [[ $option && $current == -* ]]; then _counterfrost_words "$current" "$option"; fi
    if [[ $current == --* ]]; then return; fi

    case $command:$plain in
    write:2) _counterfrost_words "$current" house ;;
    write:[13]) ;;
    fill:[34]) _counterfrost_words "$current" row: column: ;;
    help:0) _counterfrost_words "$current" "${commands[@]}" ;;
    list:0 | repair:[01] | map:0 | read:0 | write:* | fill:[01] | correct:[013])
        _counterfrost_files "$current"
        # Bash keeps what stands before a colon, and takes only what comes behind it.
        if [[ $COMP_WORDBREAKS == *:* ]]; then COMPREPLY=("${COMPREPLY[@]#"${current%"${current##*:}"}"}"); fi
        ;;
    esac
}

complete -F _counterfrost counterfrost
