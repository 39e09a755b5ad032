# shellcheck shell=sh disable=SC2154  # what the script sets before it reads this file
# program.sh: what the front doors ./lockbench and ./lockreport share. A script sets `me`, its name, which is also the program's,
# `here`, the repository's folder, and `usage`. In order: how it gives up, what it reads, the views, temporary files, the program.

fail() {
    printf '%s\n' "$me: $*" >&2
    exit 2
}

misused() {
    echo "$usage" >&2
    exit 2
}

# ---- what it reads

# readable FILE: or else it gives up
readable() {
    if [ ! -r "$1" ] || [ -d "$1" ]; then fail "'$1' is no file that can be read"; fi
}

# from_terminal WHAT: where standard input is read, and is a terminal, it says so
from_terminal() {
    if [ -t 0 ]; then echo "$me: reading $1 from the terminal; Ctrl-D on an empty line ends it" >&2; fi
}

# ---- the views

# view NAME=VALUE.. FILE..: awk with those variables and with those files of views/, in their order
view() {
    for part in "$@"; do
        case $part in
        *=*) set -- "$@" -v "$part" ;;
        *) set -- "$@" -f "$here/views/$part.awk" ;;
        esac
        shift
    done
    LC_ALL=C awk "$@"
}

# ---- temporary files

# $work, a folder that is gone whichever way the script ends
make_work() {
    work=$(mktemp -d) || fail "no temporary folder can be made"
    trap 'rm -rf "$work"' EXIT
    trap 'exit 129' HUP
    trap 'exit 130' INT
    trap 'exit 143' TERM
}

# ---- the program

# `rt run` goes by the content of the sources and of the program: it proves and builds the program where that is out of date, and
# then runs it, here once on nothing, so that the status says whether there is one. Where nothing has changed this takes some
# tenths of a second. What runs on the input is a copy, $work/program.
get_program() {
    for tool in rt flock; do
        command -v $tool >/dev/null || fail "$tool is needed and not on the path"
    done
    # One at a time. The lock is on this folder, as `rt ci` moves what each crate has in out/; it lasts until 9 is closed here and
    # in all that rt started. The copy is made under the lock, so a later build cannot change it meanwhile.
    exec 9<"$here"
    flock -w 2 9 || {
        echo "$me: waiting until another one has proved and built the program" >&2
        flock 9 || fail "$here cannot be locked"
    }
    program=$here/crates/$me/out/$me
    # beside it rt notes what it was built from; `rt ci` leaves a program without such a note
    [ -e "$program.stamp" ] || echo "$me: proving and building the program, which takes some minutes" >&2
    (cd "$here/crates/$me" && rt run) </dev/null >"$work/said" 2>&1 || {
        cat "$work/said" >&2
        fail "rt run failed, so there is no program that is up to date"
    }
    cp "$program" "$work/program" || fail "rt run ended well, and the program is gone again; remove ${program%/*} to have it built again"
    exec 9<&-
}

# run_program ARGUMENT..
run_program() {
    "$work/program" "$@" || fail "the program could not be run, or broke off with status $?"
}
