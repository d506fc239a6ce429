# shellcheck shell=sh
# Sourced by the commands in bin/ and by the scripts beside it. It gives them `command`, the name that they were called by, `root`, the tree
# that they stand in, the program that a command stands on, how that program's text is read, and how they end without an answer.
export LC_ALL=C
command=$(basename "$0")
root=$(cd "$(dirname "$(readlink -f "$0")")/.." && pwd) || exit 2
ready=$root/target/ready
# All commands; each stands on the program of its name with _file after it.
commands="judge write vcd tray"
newline='
'

# A descriptor that was handed over closed would be taken by the next file or pipe that is opened, and what is meant for one would reach
# another. So standard input, output and error are open from here on, where need be on what can't be read or written.
(exec 3<&0) 2>/dev/null || exec 0>/dev/null
(exec 3>&1) 2>/dev/null || exec 1</dev/null
(exec 3>&2) || exec 2</dev/null

# What a file or an option is called, with its control characters hidden, so that no name can print a line of its own.
printable() { printf '%s' "$1" | tr '\000-\037\177' '?'; }

# Says something on standard error; where that can't be done nobody is left to be told.
complain() { printf '%s: %s\n' "$command" "$(printable "$1")" >&2 2>/dev/null; }

# Says why there is no answer, and ends with the status that never is one.
fail() {
    complain "$1"
    exit 2
}

wrong() { fail "$1; see $command --help"; }

# Prints a text; what can't be printed is no answer.
print() { printf '%s\n' "$1" 2>/dev/null || fail "the answer could not be printed"; }

# The options that all commands have. No option is a pass, so both end with 2.
common_option() {
    case $1 in
    --help) help 2>/dev/null || fail "the help could not be printed" ;;
    --version) print "$command $(cat "$root/VERSION")" ;;
    *) wrong "unknown option $1" ;;
    esac
    exit 2
}

# Puts the path of the built program in `program`; everything is proved and built first where that was not yet done. A tree without sources
# is an installed one, and its programs are used as they are.
need_program() {
    program=$root/target/bin/$1
    [ ! -d "$root/crates" ] || is_ready || "$root/scripts/build" || exit 2
    [ -x "$program" ] || fail "its program is missing: $program"
}

# Whether what was built is there, and was built from the sources as they are. Where that can't be found out, it is not ready.
is_ready() {
    stamp=$(sources_sum) && stamp="$stamp $(built_sum)" && [ "$stamp" = "$(cat "$ready/stamp" 2>/dev/null)" ]
}

# What the toolchain makes in the crates' folders is no source.
sources_sum() { sum_of crates.txt crates -path 'crates/*/out' -prune -o; }
# shellcheck disable=SC2046,SC2086 # a command is a word
built_sum() { sum_of $(printf 'target/bin/%s_file ' $commands) target/staticlib/libstation.a; }

# One checksum of all files that find finds so, by their names and contents; none if any can't be read.
sum_of() {
    sums=$(cd "$root" && find "$@" -type f -exec cksum {} + 2>/dev/null) && sums=$(printf '%s\n' "$sums" | sort) &&
        printf '%s\n' "$sums" | cksum
}

# A program opens a file only by a name in UTF-8. For each argument that may be none, link_arguments makes a link to what it names: the link
# is called by the argument's place, and stands in a folder that the program knows by STATION_LINKS. Where no link can be made, the program
# says that it can't open the file. drop_links takes the links away.
links=''
cleans_up=''
unset STATION_LINKS
link_arguments() {
    place=0
    for named in "$@"; do
        place=$((place + 1))
        case $named in *[!\ -~]*) ;; *) continue ;; esac
        case $named in /*) ;; *) named=$PWD/$named ;; esac
        [ -n "$links" ] || make_links || return 0
        ln -s -- "$named" "$links/$place" 2>/dev/null
    done
}
make_links() {
    links=$(mktemp -d 2>/dev/null) || { links='' && return 1; }
    [ -n "$cleans_up" ] || trap drop_links EXIT
    export STATION_LINKS="$links"
}
drop_links() {
    [ -z "$links" ] || rm -rf "$links" 2>/dev/null
    links=''
    unset STATION_LINKS
}

# Asks the program; what it printed is then in `text`, and how it ended in `status`. Its standard error goes on, and what the shell itself
# says of a program that breaks does not.
ask() {
    link_arguments "$@"
    {
        text=$("$program" "$@" 2>&3 3>&-)
        status=$?
    } 3>&2 2>/dev/null
    drop_links
}

# Whether a program's text is whole: it ended well, and the last line is `end`. That line is then taken off `text`.
is_whole() {
    [ "$status" -eq 0 ] || return 1
    case $text in
    *"$newline"end) text=${text%"$newline"end} ;;
    *) return 1 ;;
    esac
}

# What is said where it is not whole.
not_whole() { echo "the program gave no whole answer (its status was $status)"; }

# Whether the text's first line is an answer's: see `is_answer_line`.
is_answer() { is_answer_line "${text%%"$newline"*}"; }

# Whether a line is an answer's: a number, a tick, a step, a count and a name, which are then in variables of these names, and what follows
# in `file`. Nothing but 20 is called complete.
is_answer_line() {
    file=$1
    number=${file%% *} file=${file#* }
    tick=${file%% *} file=${file#* }
    step=${file%% *} file=${file#* }
    count=${file%% *} file=${file#* }
    name=${file%% *} file=${file#* }
    for field in "$number" "$tick" "$step" "$count"; do
        case $field in '' | *[!0-9]* | 0?*) return 1 ;; esac
    done
    case $number,$name in
    20,complete) ;;
    20,* | *,complete | ????*,* | *, | *,*[!a-z-]*) return 1 ;;
    esac
}
