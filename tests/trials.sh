# Sourced by the tests. It takes them to the repository's root, gives them a folder of their own, `room`, which is gone at their end, and
# the ways to make a trial, of which it counts those that passed and failed.
export LC_ALL=C
root=$(cd "$(dirname "$(readlink -f "$0")")/.." && pwd) || exit 2
cd "$root" || exit 2
room=$(mktemp -d) || exit 2
trap 'rm -rf "$room"' EXIT
passed=0 failed=0

# is WHAT WANTED GOT: one trial.
is() {
    [ "$2" = "$3" ] && passed=$((passed + 1)) && return
    failed=$((failed + 1))
    printf 'FAILED %s\n  wanted: %s\n  got:    %s\n' "$1" "$2" "$3"
}

# Runs a command; what it printed is then in `out` and `err`, its exit status in `status`.
run() {
    "$@" >"$room/out" 2>"$room/err"
    status=$?
    out=$(cat "$room/out") err=$(cat "$room/err")
}

# answers WHAT STATUS TEXT COMMAND..: the command ends with this status and prints this, and nothing else, on standard output.
answers() {
    what=$1 wanted=$2 text=$3
    shift 3
    run "$@"
    is "$what: status" "$wanted" "$status"
    is "$what: output" "$text" "$out"
}

# silent WHAT COMMAND..: the command ends with 0 and says nothing.
silent() {
    what=$1
    shift
    run "$@"
    is "$what" "0 " "$status $out$err"
}

# The last line, and the status: a test in which nothing was tried has not passed.
report() {
    echo "$passed passed, $failed failed"
    [ "$failed" -eq 0 ] && [ "$passed" -gt 0 ]
}
