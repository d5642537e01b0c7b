# To be sourced, in sh or bash, at the top of the repository. What is built is proved first.
#   build_archive NAME    target/staticlib/libNAME.a, the calls of the library NAME for C
#   build_program         target/bin/mesh

# The libraries that have an archive: NAME_c is the crate that exports the calls of NAME.
archives="route wormhole traffic report"

# build_crate NAME WORDS..: has rt work on a crate, and shows what it says where that fails.
build_crate() {
    build_log=$(mktemp) || return 1
    (cd "crates/$1" && shift && rt "$@") >"$build_log" 2>&1 </dev/null || {
        cat "$build_log" >&2
        rm -f "$build_log"
        return 1
    }
    rm -f "$build_log"
}

build_archive() {
    build_crate "$1_c" lib && mkdir -p target/staticlib &&
        cp "crates/$1_c/out/lib$1_c.a" "target/staticlib/lib$1.a"
}

# rt builds a program where it runs it: with no word the program prints how it is used.
build_program() {
    build_crate mesh run && mkdir -p target/bin && cp crates/mesh/out/mesh target/bin/mesh
}
