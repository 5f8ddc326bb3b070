# What the commands for users share: one for each proved program, as ./run, ./steps, and tools/built for scripts. Such a command begins with
#     case $0 in */*) self=$0 ;; *) self=./$0 ;; esac
#     [ ! -L "$self" ] || self=$(readlink -f "$self")
#     . "${self%/*}/tools/program.sh"
# which finds its folder through links too, and sets `name`, which stands before what it says on standard error. Its head is its --help
# (words.sh). Once a program is built nothing is written, and no other command is started: that costs some milliseconds.
here=${self%/*}
. "$here/tools/words.sh"

# fail WHAT: says what is wrong, and ends.
fail() {
    printf '%s: %s\n' "$name" "$1" >&2
    exit 1
}

# fresh BUILT SOURCE..: whether it is there and no older than what it is built from.
fresh() {
    built=$1
    shift
    [ -e "$built" ] || return 1
    for source in "$@"; do
        [ ! "$source" -nt "$built" ] || return 1
    done
}

# up_to_date BUILT: whether it is there and no older than the code. A changed definition or proof does not change what is built.
up_to_date() {
    fresh "$1" "$here/crates.txt" "$here"/crates/*/src/*.rt
}

# in_order CRATE: the crates that it reaches, itself the last, as rt proves them: each behind those that it uses.
in_order() {
    awk -v from="$1" '{ sub(/#.*/, "") } /:/ { name = $0; sub(/[ :].*/, "", name); rest = $0; sub(/[^:]*:/, "", rest); needs[name] = rest }
        function visit(crate, parts, n, i) { if (!(crate in needs) || crate in seen) return; seen[crate] = 1; n = split(needs[crate], parts, " "); for (i = 1; i <= n; i++) visit(parts[i]); print crate }
        END { visit(from) }' "$here/crates.txt"
}

# tell_progress CRATE..: says of each crate that rt has proved that it is, and how many of these are then; rt says nothing of those that it finds
# proved already.
tell_progress() {
    crate=
    while read -r first second third fourth fifth sixth rest; do
        case "$first $second $fifth" in
        "rt: chose for") crate=$sixth ;;
        logic=proved*)
            count=0
            for one in "$@"; do
                count=$((count + 1))
                [ "$one" != "$crate" ] || echo "$name: $count of $# crates are proved: $crate"
            done
            ;;
        esac
    done
}

# prove WHAT BUILT HOW CRATE MADE: proves CRATE and what it reaches and builds it by `rt HOW` in its folder, puts what that makes, MADE, at BUILT,
# and says how far it is. `rt run` also runs the program, on an input that is empty. A line `build: N` at the end of the log has rt's status.
prove() {
    log=$here/target/$name-build.log
    command -v rt >/dev/null || fail "$1 is not built, and the Rattle kit's command rt is not on the PATH"
    { mkdir -p "$here/target" && true >"$log"; } 2>/dev/null || fail "$1 is missing or older than the code, and $here cannot be written: build it in a clone that can be"
    echo "$name: proving and building $1 first; from nothing this takes some minutes" >&2
    (
        CDPATH='' cd -P -- "$here/crates/$4" && rt "$3" </dev/null 2>&1
        echo "build: $?"
    ) | tee "$log" | tell_progress $(in_order "$4") >&2
    [ "$(tail -n 1 "$log")" = "build: 0" ] || fail "$1 could not be built: see $log"
    # Whoever uses it meanwhile meets a whole one.
    { mkdir -p "${2%/*}" && cp "$here/crates/$4/$5" "$2.$$" && mv "$2.$$" "$2"; } || fail "$1 could not be put at $2"
}

# The static library: proved and built first where it is missing or older than the code. The crate of its exports is lughtsavi_c.
library() {
    archive=$here/target/staticlib/liblughtsavi.a
    up_to_date "$archive" || prove "the static library" "$archive" lib lughtsavi_c out/liblughtsavi_c.a
}

# program CRATE: a proved program, which is proved and built first where it is missing or older than the code.
program() {
    program=$here/target/bin/$1
    { [ -x "$program" ] && up_to_date "$program"; } || prove "the program" "$program" run "$1" "out/$1"
}

# take_file WORD..: the words of a command on a step file, which becomes standard input: its name; - or no word for standard input itself.
take_file() {
    help_asked "$@"
    [ $# -le 1 ] || wrong
    case ${1--} in
    -) true 2>/dev/null 3<&0 || fail "standard input is closed" ;;
    -*) wrong ;;
    *)
        [ -e "$1" ] || fail "there is no file $1"
        [ ! -d "$1" ] || fail "$1 is a folder, not a step file"
        [ -r "$1" ] || fail "$1 cannot be read"
        exec <"$1"
        ;;
    esac
}

# run_program CRATE: runs a proved program, which is proved and built first where it is missing or older than the code, and ends. It has no
# exit status of its own: what it says on standard error is what went wrong.
run_program() {
    true 2>/dev/null 3>&1 || fail "standard output is closed"
    program "$1"
    exec 3>&1
    said=$("$program" 2>&1 >&3 3>&-)
    status=$?
    # A program meets a reader that has gone as a write that fails; the command ends by the signal for it, unless that is ignored.
    case $said in *": Broken pipe") kill -PIPE $$ ;; esac
    [ -z "$said" ] || fail "${said#"$1: "}"
    exit "$status"
}
