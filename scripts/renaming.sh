# shellcheck shell=sh disable=SC2034,SC2154 # program, status and text are those of program.sh
# Sourced, after program.sh, by the commands that replace a file: a new one is made in a folder beside the old one and renamed when it is
# whole, so that the old one stays as it was whatever fails. A command that sources it has a function `unwritable MESSAGE`, which ends it
# since the file can't be written.
child='' folder=''

# give_reason FILE MESSAGE: says why a file failed. The reason is what stands last in the message of what failed: no temporary name is
# ever shown.
give_reason() { printf '%s: %s\n' "$(printable "$1")" "${2##*: }" >&2 2>/dev/null; }

# find_old PATH: puts the whole path of what is behind symbolic links in `old`, or fails where that can't be told.
find_old() {
    # the line end and the dot keep line ends that the name itself ends with
    old=$(readlink -f -- "$1" 2>/dev/null && echo .) || return 1
    old=${old%"$newline".}
    # of a link to nothing busybox's readlink gives no whole path
    case $old in /*) ;; *) return 1 ;; esac
}

# Ends the program if it still runs, and removes the folder beside the old file.
clean_up() {
    [ -z "$child" ] || { kill "$child" && wait "$child"; } 2>/dev/null
    [ -z "$folder" ] || rm -rf "$folder" 2>/dev/null
    child='' folder=''
    drop_links
}

# From here on nothing is left behind at the end, nor by a signal, which is acted on only while the shell waits for a program in the
# background.
clean_up_at_the_end() {
    cleans_up=yes
    trap clean_up EXIT
    trap 'exit 2' HUP INT QUIT TERM
}

# Makes the folder beside the old file, and in it a copy of that, if there is one: the new file, with the old one's mode and owner.
make_folder() {
    folder=$(mktemp -d "${old%/*}/.station.XXXXXX" 2>&1) || {
        said=$folder folder=''
        unwritable "$said"
    }
    [ ! -e "$old" ] || said=$(cp -p -- "$old" "$folder/new" 2>&1) || unwritable "$said"
}

# Asks the program as `ask` does, but in the background, so its answer is kept in the folder too. Descriptor 9 is a lock of this shell's,
# where there is one, and would stay locked by a program that outlives it.
ask_in_background() {
    link_arguments "$@"
    { "$program" "$@" <&3 >"$folder/answer" 2>&4 3<&- 4>&- 9<&- & } 3<&0 4>&2 2>/dev/null
    child=$!
    wait "$child" 2>/dev/null
    status=$? child=''
    drop_links
    text=$(cat "$folder/answer" 2>/dev/null)
}

# Puts the new file in the old one's place.
rename_new() { said=$(mv -f -- "$folder/new" "$old" 2>&1) || unwritable "$said"; }
