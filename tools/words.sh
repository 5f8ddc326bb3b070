# The words of a command, shared by the scripts. A script sets `self`, its own file, and sources this. Its head, the comment below its first
# line, is what --help prints: what the script does, its words, its statuses.

# Prints the head.
usage() {
    sed -n '1d; /^#/!q; s/^# \{0,1\}//p' <"$self"
}

# The command was wrong: nothing is done.
wrong() {
    usage >&2
    exit 2
}

# help_asked WORD..: prints the head and ends where --help is the only word.
help_asked() {
    case "$# ${1-}" in
    "1 -h" | "1 --help")
        usage || exit 1
        exit 0
        ;;
    esac
}

# no_words WORD..: the words of a command that takes none but --help.
no_words() {
    help_asked "$@"
    [ $# -eq 0 ] || wrong
}

# number WORD: the word must be a number in base ten.
number() {
    case ${1-} in
    "" | *[!0-9]*) wrong ;;
    esac
}
