# What ./sysapi and ./test share: where the program stands, whether it is up to date, and how it is built.
# To be sourced by bash, with `top` set to the folder of the repository. Everything here speaks on standard error only,
# reads nothing of standard input, and leaves the caller's folder alone, since the program's own words may name files there.

program=$top/crates/sysapi/out/sysapi
# beside the program: the checksums of the sources that it was built from, and of itself
stamp=$program.sum
build_log=$top/crates/sysapi/out/build.log

say() { printf 'sysapi: %s\n' "$*" >&2; }

# Says what is missing where the kit isn't there.
need_kit() {
    command -v rt >/dev/null && return
    say "the Rattle kit is missing: there is no command rt on PATH, which proves and builds the program"
    return 1
}

# The identity of the kit. `rt version` prints the file KIT-ID of its folder in a third of a second; reading it takes none.
kit_identity() {
    local kit
    kit=$(dirname -- "$(dirname -- "$(readlink -f -- "$(command -v rt)")")")
    cat -- "$kit/KIT-ID" 2>/dev/null || rt version </dev/null
}

# One checksum over the kit's identity and the names and contents of all that the program is proved and built from.
sources_sum() (
    cd -- "$top" || exit 1
    {
        kit_identity
        find crates.txt HANDLES crates -name out -prune -o -type f \
            \( -path crates.txt -o -path HANDLES -o -path 'crates/*/src/*' -o -path 'crates/*/specs/*' -o -path 'crates/*/proofs/*' \) -print0 |
            LC_ALL=C sort -z | xargs -0 sha256sum --
    } | sha256sum | cut -d ' ' -f 1
)

program_sum() { sha256sum <"$program" | cut -d ' ' -f 1; }

# Whether the program that stands there is the one that was built from the sources as they are now. The program's own
# checksum is part of the answer: another build may have replaced it, and a build that was stopped may have left half of it.
is_fresh() {
    [ -x "$program" ] && [ -f "$stamp" ] && [ "$(cat -- "$stamp")" = "$(sources_sum) $(program_sum)" ]
}

# Notes that the program was built from the sources with the checksum $1, unless they have changed since.
note_built() {
    [ "$1" = "$(sources_sum)" ] || return 0
    printf '%s %s\n' "$1" "$(program_sum)" >"$stamp.$$" && mv -- "$stamp.$$" "$stamp"
}

# Hands the kit's lines on to the log, and says in one short line for each crate that it is checked, or has failed.
tell_progress() {
    local line checked=0 total
    total=$(grep -c '^[a-z]' "$top/crates.txt")
    while IFS= read -r line; do
        printf '%s\n' "$line" >>"$build_log"
        case $line in
        '== summary') ;;
        '== '*)
            checked=$((checked + 1))
            say "${line#== } is checked ($checked of $total crates)"
            ;;
        [a-z]*': failed ('*) say "$line" ;;
        'linked '*) say "linked the program" ;;
        esac
    done
}

# Runs the words in the folder $1, with its lines told and logged, and ends with their status. The file that holds the
# lock is closed for them, so that nothing they leave behind keeps it.
step() {
    local folder=$1
    shift
    (cd -- "$folder" && exec "$@" </dev/null 2>&1 9>&-) | tell_progress 9>&-
    return "${PIPESTATUS[0]}"
}

# Proves all crates side by side, then builds the program and runs it once on empty input: the fastest first build.
build() {
    local before status
    before=$(sources_sum)
    say "building the proved program: each crate is proved first, which takes minutes the first time"
    : >"$build_log"
    step "$top" rt all check && step "$top/crates/sysapi" rt run -- - once
    status=$?
    if [ "$status" -ne 0 ] || [ ! -x "$program" ]; then
        say "the build failed (status $status), so nothing is run; what the kit said stands in $build_log"
        return 1
    fi
    note_built "$before" || { say "cannot write $stamp"; return 1; }
}

# Builds the program where it isn't there or its sources have changed. Of two runs at once the second waits for the first
# and takes what it built, where there is flock; the kit lets only one run work in a crate at a time in any case.
ensure_built() {
    is_fresh && return
    [ -d "$top/crates/sysapi/src" ] || { say "there is no crate sysapi in $top/crates"; return 1; }
    mkdir -p -- "$top/crates/sysapi/out" && exec 9>>"$program.lock" || { say "cannot write to $top/crates/sysapi/out"; return 1; }
    if command -v flock >/dev/null && ! flock -n 9; then
        say "waiting for another build of this program to end"
        flock 9
    fi
    local status=0
    # (again where the sources changed during the build)
    until is_fresh || [ "$status" -ne 0 ]; do
        build
        status=$?
    done
    exec 9>&-
    return "$status"
}
