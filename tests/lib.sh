# What the scripts share that run a program: $recordings, the folder $room, which is removed at the end, and functions that set $failed to 1 where
# the program does something else. Sourced by bash. The functions run $program.
set -uo pipefail
tests=$(dirname "$(realpath "${BASH_SOURCE[0]}")")
recordings=$tests/recordings
room=$(mktemp -d)
trap 'rm -rf "$room"' EXIT
failed=0
# the file that the program reads through a pipe on standard input
input=/dev/null

# program_of NAME: the path of a program that `rt ci` or `rt run` built, or of the one in the folder that the variable PROGRAMS names
program_of() {
    realpath "${PROGRAMS:-$tests/../crates/$1/out}/$1"
}

# has_clap_texts: whether texts of arguments' errors and of the help are those of clap 4.5, as of the kit's: the variable CLAP is the version that
# cargo took for the programs
has_clap_texts() {
    [ -z "${CLAP:-}" ] || printf '%s\n' 4.5 "$CLAP" | sort -CV
}

# runs ARGUMENT..: runs the program; its exit status is in $status
runs() {
    status=0
    "$program" "$@" < <(cat "$input") > "$room/out" 2> "$room/err" || status=$?
}

# ends WHAT STATUS STDERR: the last command exited with this status, and wrote this to standard error
ends() {
    if [ "$status" != "$2" ] || [ "$(cat "$room/err")" != "$3" ]; then
        echo "$1: status $status and '$(cat "$room/err")', wanted $2 and '$3'"
        failed=1
    fi
}

# says STATUS STDERR ARGUMENT..: the program exits with this status, and writes this to standard error
says() {
    local wanted=$1 text=$2
    shift 2
    runs "$@"
    ends "$(basename "$program") $*" "$wanted" "$text"
}

# fails STATUS PATTERN ARGUMENT..: the program exits with this status, and its standard error on one line matches this pattern
fails() {
    local wanted=$1 pattern=$2
    shift 2
    runs "$@"
    if [ "$status" != "$wanted" ] || ! tr '\n' ' ' < "$room/err" | grep -Eq -e "$pattern"; then
        echo "$(basename "$program") $*: status $status and '$(cat "$room/err")', wanted $wanted and '$pattern'"
        failed=1
    fi
}

# makes FILE: writes the bytes `made` of the Python code on standard input, in which the names of perfdata.py are known
makes() {
    PYTHONPATH=$tests python3 -B -c 'import sys
from perfdata import *
exec(sys.stdin.read())
open(sys.argv[1], "wb").write(made)' "$1"
}
