# shellcheck shell=bash disable=SC2034,SC2154
# Read by gen2run, tools/ and the checks: which words the program has, by docs/help.txt, which of them may have a file behind them, and what
# --help and --version print. checks/words compares what is told here with the program. `top` is the top of the repository.

# Prints the table of words, a row a line: FORM | INPUT | OUTPUT. A word in capitals stands for a number, and the input is `nothing` where none
# is read.
table_of_words() {
    sed -nE '/^words +input -> output$/,/^$/ { s/^  ([^ ]+( [^ ]+)*) {2,}(.+) -> (.+)$/\1 | \3 | \4/p }' "$top/docs/help.txt"
}

# Prints what the program says under --help.
help_text() {
    cat "$top/docs/help.txt"
}

# Prints what the program of these sources says under --version: the proved one, or one that is built without a proof.
version_text() {
    if [ "$1" = proved ]; then cat "$top/docs/version.txt"; else sed 's/^proved with /unproved, built with /' "$top/docs/version.txt"; fi
}

# Prints the version of the program.
version_number() {
    sed -n '1s/^gen2run //p' "$top/docs/version.txt"
}

# Tells whether a word is one of those that a word of a form stands for.
fits_word() {
    local most
    case $1 in
        SEED) most=18446744073709551615 ;;
        TAGS) most=256 ;;
        *[!A-Z]*) [ "$1" = "$2" ] && return || return 1 ;;
        # (what no limit is known of, the program judges)
        *) return 0 ;;
    esac
    [[ $2 =~ ^(0|[1-9][0-9]*)$ ]] || return 1
    [ ${#2} -lt ${#most} ] && return
    # (of numbers with the same number of digits the order is that of texts, also beyond 64 bits)
    # shellcheck disable=SC2071
    [ ${#2} -eq ${#most} ] && [[ ! $2 > $most ]]
}

# Tells whether words are of a form.
fits_form() {
    local form at
    read -ra form <<<"$1"
    shift
    [ ${#form[@]} -eq $# ] || return 1
    for at in "${!form[@]}"; do
        fits_word "${form[$at]}" "$1" || return 1
        shift
    done
}

# Sets `meant` to what the words ask for: `form` where they are those of a form, `file` where they are those of one with an input and a file
# behind them, `none` where they are no such words, and `unread` where one can't be read. What no table tells is for the program to judge.
judge_words() {
    local LC_ALL=C rows form input
    meant=none has_input=
    mapfile -t rows < <(table_of_words)
    [ ${#rows[@]} -gt 0 ] || meant=form
    for row in "${rows[@]}"; do
        form=${row%% | *} input=${row#* | } input=${input%% | *}
        if fits_form "$form" "$@"; then
            meant=form
        elif [ $# -gt 0 ] && [ "$input" != nothing ] && [[ ${*: -1} != -* && -n ${*: -1} ]] && fits_form "$form" "${@:1:$#-1}"; then
            [ $meant = form ] || meant="file"
        else
            continue
        fi
        [ "$input" = nothing ] || has_input=yes
    done
    # A word that isn't UTF-8 can't be read; only one with other bytes than ASCII has can be such.
    [[ $meant != none || ! "$*" == *[$'\x80'-$'\xff']* ]] ||
        python3 -c 'import os, sys; [os.fsencode(it).decode() for it in sys.argv[1:]]' "$@" 2>/dev/null || meant=unread
}
