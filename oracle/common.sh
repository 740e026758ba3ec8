# What the scripts here have in common.

root=$(cd "$(dirname "${BASH_SOURCE[0]}")/.." && pwd)

# Ends the script where the Rust cannot be built, saying what is skipped ($1).
need_rust() {
    if ! command -v cargo >/dev/null; then
        echo "$1 skipped: no cargo"
        exit 0
    fi
    if [ ! -d "${P3_SOURCES:-$root/../shared/docs/src/src}" ]; then
        echo "$1 skipped: no ../shared"
        exit 0
    fi
}

# Fails where the file $1 is missing, saying which command makes it ($2).
need() {
    if [ ! -f "$1" ]; then
        echo "${1#"$root"/} is missing: run \`$2\` first" >&2
        exit 1
    fi
}

# Fails where an archive of the operations on words is missing.
need_host() {
    local name
    for name in host host_values; do
        need "${HOST_LIB_DIR:-$root/crates/$name/out}/lib$name.a" "tools/archive $name"
    done
}

# Fails where there is no archive of the ward's calls.
need_ward() {
    need "${WARD_LIB_DIR:-$root/crates/ward/out}/libward.a" "tools/archive ward"
}

# Fails where there is no program for frames; names it for the comparison.
need_foldframes() {
    export FOLDFRAMES=${FOLDFRAMES:-$root/crates/foldframes/out/foldframes}
    need "$FOLDFRAMES" "cd crates/foldframes && rt run"
}

# Builds the program $1 and runs it with the other arguments.
build_and_run() {
    local program=$1
    shift
    export CARGO_TARGET_DIR=$root/target/oracle
    cargo build --release --offline --locked --quiet \
        --manifest-path "$root/oracle/Cargo.toml" --package "$program"
    exec "$CARGO_TARGET_DIR/release/$program" "$@"
}
