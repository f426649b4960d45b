# What the oracle's commands share. Sourced, with `here` set to the oracle's folder.
build=$here/target
published=$here/kcp-0.6.0
registry_apt=/usr/share/cargo/registry
registry_own=$here/debian/usr/share/cargo/registry
crates_needed="bytes log cfg-if thiserror thiserror-impl proc-macro2 quote syn unicode-ident"

complain() {
    printf '%s: %s\n' "$(basename "$0")" "$*" >&2
}

stop() {
    complain "$*"
    exit 2
}

# Prints the crates of $crates_needed that the folder $1 lacks.
lacking() {
    for name in $crates_needed; do
        set -- "$1" "$1/$name"-[0-9]*
        [ -d "$2" ] || printf '%s ' "$name"
    done
}

# Sets `registry` to the folder of crate sources, or fails.
find_registry() {
    for registry in "$registry_own" "$registry_apt"; do
        [ -n "$(lacking "$registry")" ] || return 0
    done
    registry=
    return 1
}

need_setup() {
    command -v cargo >/dev/null || stop "no cargo on the path; run oracle/setup, which says what is missing"
    find_registry || stop "the crates that the Rust needs are not here; run oracle/setup"
}

# Writes the crate $2 into the folder $1 from the published text, or from the folder $3 in its place:
# unchanged, with the module inside.rs appended. A file that would not change is not touched, so that nothing is built twice.
write_judge() {
    from=${3:-$published}
    mkdir -p "$1/src"
    {
        printf '[package]\nname = "%s"\nversion = "0.6.0"\nedition = "2018"\npublish = false\n\n' "$2"
        printf "[features]\ntokio = []\nfastack-conserve = []\n\n"
        printf '[dependencies]\nbytes = "1"\nlog = "0.4"\nthiserror = "1"\nstate = { path = "%s/state" }\n' "$here"
    } | put "$1/Cargo.toml"
    cat "$from/src/kcp.rs" "$here/inside.rs" | put "$1/src/kcp.rs"
    { cat "$from/src/lib.rs" && printf '\npub use kcp::inside;\n'; } | put "$1/src/lib.rs"
    put "$1/src/error.rs" <"$from/src/error.rs"
}

# Writes standard input to the file $1, if it differs from what is there, whole or not at all.
put() {
    cat >"$1.new"
    if cmp -s "$1.new" "$1"; then rm -f "$1.new"; else mv "$1.new" "$1"; fi
}

# Runs cargo in the package $1 of the oracle, offline, with Debian's crate sources in place of the registry.
# What it builds goes to the folder $cargo_out.
cargo_out=$build/cargo
cargo_in() {
    package=$1
    shift
    (cd "$here/$package" && CARGO_TARGET_DIR=$cargo_out cargo "$@" --offline --quiet \
        --config 'source.crates-io.replace-with="debian"' \
        --config "source.debian.directory=\"$registry\"")
}

# Has the drivers link the port, where Rattle's kit is here to build it; else they go without.
build_port() {
    root=$(dirname "$here")
    [ -d "$root/crates/kcp_c" ] || return 0
    if ! command -v rt >/dev/null; then
        complain "no 'rt' on the path: the port cannot be built, and a copy of the Rust stands in for it"
        return 0
    fi
    library=$root/target/staticlib/libkcp_c.a
    newer=
    [ ! -f "$library" ] || newer=$(find "$root/crates" "$root/crates.txt" -newer "$library" -type f -not -path "*/out/*" | head -n 1)
    if [ ! -f "$library" ] || [ -n "$newer" ]; then
        [ ! -t 2 ] || printf '\r\033[Kbuilding the port ..' >&2
        mkdir -p "$build"
        "$root/build" >"$build/port.log" 2>&1 || { cat "$build/port.log" >&2; stop "the port did not build"; }
        [ ! -t 2 ] || printf '\r\033[K' >&2
    fi
    KCP_C=$root/target/staticlib
    export KCP_C
}

# Builds the judge, the copy that stands in for the port, and the drivers.
build_all() {
    build_port
    [ ! -t 2 ] || printf '\r\033[Kbuilding the drivers ..' >&2
    write_judge "$build/judge" kcp_judge
    write_judge "$build/other" kcp_other
    cargo_in run build --release && cargo_in timing build --release || stop "the drivers did not build"
    [ ! -t 2 ] || printf '\r\033[K' >&2
}
