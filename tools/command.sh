# shellcheck shell=bash
# Sourced by the commands plate and verify, which tell their usage on standard output.

# The folder of the repository, also where a command was called by a link.
self=$(readlink -f -- "${BASH_SOURCE[1]}") || exit 2
root=$(dirname -- "$self")

# stale PROGRAM: no program yet, or a source newer than it.
stale() {
    [ ! -x "$1" ] || [ -n "$(find "$root/crates.txt" "$root"/crates/*/{src,specs,proofs} -newer "$1" -print -quit 2>/dev/null)" ]
}

# build NAME PROGRAM: one at a time; a call that waited for another's build finds the program there.
build() {
    mkdir -p -- "$root/target" || return
    if command -v flock >/dev/null; then exec 9>"$root/target/build.lock" && flock 9; fi
    stale "$2" || return 0
    (cd -- "$root/crates/$1" && rt run </dev/null >/dev/null) && touch -c -- "$2"
}

# answer NAME WORDS..: prints what the program of the crate NAME prints for standard input. Builds the program where it is missing or
# older than its sources; what the build says goes to standard error. There are no words but --help. Status 1 says that standard
# input could not be read.
answer() {
    local name=$1 program=$root/crates/$1/out/$1 status
    shift
    if [ $# -gt 0 ]; then
        usage >&2
        [ "$1" = --help ]
        exit $(($? * 2))
    fi
    if stale "$program"; then
        if ! command -v rt >/dev/null; then
            echo "$name: the program has to be built first, and the toolchain's command 'rt' is not in the PATH" >&2
            exit 2
        fi
        echo "$name: building the program (its proofs take some minutes the first time)" >&2
        if ! (build "$name" "$program") </dev/null >&2; then
            echo "$name: the program could not be built" >&2
            exit 2
        fi
    fi
    # The program prints lines for every input that it can read. grep passes them on, and its status is 1 where there are none.
    set -o pipefail
    "$program" | grep ''
    status=$?
    if [ $status = 1 ]; then echo "$name: standard input could not be read" >&2; fi
    exit $status
}
