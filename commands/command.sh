# What ./plan and ./draw share: opening the input, and building the command where it is out of date. They set `top`, the
# repository, and `name`, the command, and define `usage` before they read this file.
. "$top/commands/sources.sh"
archive=$top/target/staticlib/libwospinzo.a
binary=$top/target/cargo/release/$name

fail() { # STATUS MESSAGE
    echo "$name: $2" >&2
    exit "$1"
}

# Makes the named file standard input. `-` leaves that as it is, and so does no name, where it is no terminal.
open_input() { # [FILE]
    case ${1-} in
        -) ;;
        '') [ $# -eq 0 ] && [ ! -t 0 ] || { usage; exit 2; } ;;
        *)
            [ -e "$1" ] || fail 1 "there is no file $1"
            [ ! -d "$1" ] || fail 1 "$1 is a directory"
            [ -r "$1" ] || fail 1 "$1 cannot be read"
            exec <"$1"
            ;;
    esac
    (exec 4<&0) 2>/dev/null || fail 1 'standard input could not be read'
}

# FILE is there, and nothing in the other places is newer.
up_to_date() { # FILE PLACE...
    local file=$1
    shift
    [ -f "$file" ] && [ -z "$(find "$@" -newer "$file" -print -quit)" ]
}
archive_up_to_date() { [ -f "$archive" ] && ! sources_newer "$archive"; }
binary_up_to_date() { up_to_date "$binary" "$top/commands" "$top/rust/wospinzo" "$archive"; }

build_archive() {
    echo "$name: proving and building the archive, once" >&2
    (cd "$top" && ./archive 2>&1 9>&-) </dev/null | tee "$top/target/log/archive.out" | grep --line-buffered '^rt: [a-z_]* proved' >&2
    [ "${PIPESTATUS[0]}" -eq 0 ] && [ -f "$archive" ] || fail 3 'the archive could not be built: see target/log/archive.out'
}

build_binary() {
    (
        unset WOSPINZO_LIB_DIR
        export CARGO_TARGET_DIR="$top/target/cargo"
        cd "$top" && exec cargo build --offline --release --manifest-path commands/Cargo.toml 9>&-
    ) </dev/null >"$top/target/log/commands.out" 2>&1 || fail 3 'the command could not be built: see target/log/commands.out'
    touch "$top/target/cargo/release/plan" "$top/target/cargo/release/draw"
}

# One build at a time, as the commands and ./run may stand in one pipe.
build() {
    archive_up_to_date && binary_up_to_date && return
    mkdir -p "$top/target/log"
    (
        flock 9
        archive_up_to_date || build_archive
        binary_up_to_date || build_binary
    ) 9>"$top/target/log/build.lock" || exit 3
}
