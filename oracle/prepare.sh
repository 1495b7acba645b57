# shellcheck shell=bash
# Functions for the scripts that build Rust programs over the library, oracle/run and bench/run.

# find_docs ROOT [DOCS_SRC]: prints the folder of the published Rust, docs/src: the one given, or
# the one in the folder shared/ beside the repository.
find_docs() {
    local docs=${2:-$1/../shared/docs/src}
    if [ -f "$docs/src/geometry.rs" ]; then
        (cd "$docs" && pwd)
    else
        echo "no published Rust in $docs: give the folder docs/src as the first argument" >&2
        return 2
    fi
}

# prepare DOCS_SRC: at the repository's root, proves and builds the library, and takes the
# original function bodies out of the published Rust, into target/oracle/original.
prepare() {
    mkdir -p target/oracle
    ./build || return 1
    python3 -B oracle/extract_test.py 2>target/oracle/extract.log || { cat target/oracle/extract.log; return 1; }
    python3 -B oracle/extract.py "$1" oracle/items target/oracle/original
}

# compile MAIN OUT: compiles a Rust program, with what `prepare` made.
compile() {
    VISKUNOR_ORIGINAL="$PWD/target/oracle/original" \
        rustc --edition 2024 -O -D warnings "$1" -o "$2" -L native=target/lib -l static=viskunor
}
