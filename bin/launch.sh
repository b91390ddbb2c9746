# What the launchers of bin/ share. They set root, the repository's folder, and name, the program's, before they read this
# file.

# Whether a program isn't built yet, or crates.txt or a source in these parts of the crates is newer. A folder is newer
# where a file came or went.
is_stale() {
    local program=$1 part newer folders=()
    shift
    [ -x "$program" ] || return 0
    for part in "$@"; do
        folders+=("$root"/crates/*/"$part")
    done
    newer=$(find "$root/crates.txt" "${folders[@]}" -newer "$program" \
        \( -name '*.rt' -o -name '*.antt' -o -name crates.txt -o -type d \) -print -quit 2>/dev/null)
    [ -n "$newer" ]
}

# Builds a program by the command given. It gets the time at which its sources were taken, so that what is written
# meanwhile is newer.
build() {
    local program=$1 begin status
    shift
    begin=$(mktemp) || return 1
    "$@" >&2 </dev/null && touch -r "$begin" "$program"
    status=$?
    rm -f "$begin"
    return $status
}

# Runs the proved program with the words given. It is proved and built first where it isn't built yet or a source is
# newer; what that says goes to standard error alone.
launch() {
    local program=$root/crates/$name/out/$name
    # A gate takes away what checks made, and leaves the program that stands in out/.
    if is_stale "$program" src specs proofs; then
        program=$root/out/$name
    fi
    if is_stale "$program" src specs proofs; then
        build "$program" "$root/tools/prove.py" "$name" || stop_unbuilt
    fi
    run "$program" "$@"
}

# Ends the launcher where a program couldn't be built.
stop_unbuilt() {
    echo "$name: the program could not be built" >&2
    exit 70
}

# Runs the program with the words given in the launcher's place. Where standard error is a terminal, the launcher of
# xg_solve stays behind it, and says after a status 1, 2 or 3 which call explains it; into files and pipes nothing is
# added.
run() {
    [ "$name" = xg_solve ] || exec "$@"
    [ -t 2 ] || exec "$@"
    { true <&0; } 2>/dev/null || exec "$@"
    local status signal
    child="" early=""
    for signal in HUP INT QUIT TERM USR1 USR2; do
        trap "pass_on $signal" "$signal"
    done
    # Beside a script that waits, standard input and the signals of the keyboard are given back to the program.
    (trap - INT QUIT && exec "$@") <&0 &
    child=$!
    [ -z "$early" ] || pass_on "$early"
    # A signal ends a wait early; the program's status comes again when it has ended. Where both came at once bash loses
    # that, which a status that the program hasn't says, and then the signal has ended the program.
    wait "$child"
    while kill -0 "$child" 2>/dev/null; do wait "$child"; done
    wait "$child"
    status=$?
    case $status in
        127 | 255 | -1) [ -z "$early" ] || status=$((128 + $(kill -l "$early"))) ;;
    esac
    case $status in
        1 | 2 | 3) shift && tell_explain "$@" >&2 ;;
    esac
    [ "$status" -le 128 ] || end_by "$((status - 128))"
    exit "$status"
}

# Sends a signal on to the program, or keeps it until that has begun.
pass_on() {
    early=$1
    [ -z "$child" ] || kill -s "$1" "$child" 2>/dev/null
}

# Says which call explains a fault.
tell_explain() {
    local tool=$root/tools/explain words=""
    [ "$PWD" = "$root" ] && tool=tools/explain
    [ $# -eq 0 ] || words=$(printf ' %q' "$@")
    printf 'xg_solve: %q --%s says more; README.md and docs/man/xg_solve.1 have the commands\n' "$tool" "$words"
}

# Ends the launcher as the program ended, by a signal.
end_by() {
    ulimit -c 0
    trap - "$1" 2>/dev/null
    kill -s "$1" $$
}
