# Proves and builds programs and the library for C, and builds `git cgraph`: sourced by building/program, building/library,
# building/install and git-cgraph, with the clone's folder in `top`.
#
#     build graphtool historytool commitgraph_c
#
# proves in one run what is older than a source, since they share crates, and one run keeps all processors busy. The name
# commitgraph_c is that of the library. building/proving.py says each crate that it proved. All output goes to standard
# error. Where something fails, the script ends with status 1.

out=$top/crates/commitgraph_c/out
archive=$out/libcommitgraph.a
shared=$out/libcommitgraph.so
header=$top/bindings/c/commitgraph.h
soname=libcommitgraph.so.1
cgraph=$top/cgraph/target/release/git-cgraph

# Prints the path of what is proved: of a program, or of the library with all of its names.
proved() {
    case $1 in
    commitgraph_c) echo "$out/libcommitgraph_c.a" ;;
    *) echo "$top/crates/$1/out/$1" ;;
    esac
}

# Whether that is there, and no source of any crate, code, contract or proof, changed after it was built.
is_current() {
    [ -f "$(proved "$1")" ] || return 1
    newer=$(cd "$top" && find crates.txt crates/*/src crates/*/specs crates/*/proofs -newer "$(proved "$1")" 2>/dev/null) || :
    [ -z "$newer" ]
}

# Whether the library is there with the names of the calls alone, of what is proved now.
is_merged() {
    is_current commitgraph_c && [ -f "$archive" ] && [ -f "$shared" ] && [ ! "$(proved commitgraph_c)" -nt "$archive" ] &&
        [ ! "$header" -nt "$archive" ]
}

# Ends where some command is missing: before the proofs, which take minutes.
need() {
    for tool; do
        command -v "$tool" >/dev/null && continue
        case $tool in
        rt) of=' of the Rattle kit that README.md names' ;;
        *) of='' ;;
        esac
        echo "$names: for the proofs and the build, the command $tool$of has to be on the PATH" >&2
        exit 1
    done
}

# The calls that the header has whole, for programs in other languages. The kit's compiler has no headers of the C library.
sentences() {
    echo 'typedef unsigned int uint32_t; int strcmp(const char *, const char *);'
    sed -n '/^enum cg_code {/,/^};/p; /^static inline const char \*cg_/,/^}/p' "$header" | sed 's/^static inline //'
}

# Puts what was proved, the kit's heap and the sentences into one object, whose only names for others are those of the calls,
# and that into an archive and a shared library. It works in a folder of its own, since another run may do the same.
merge() (
    kit=$(dirname "$(rt doc)")
    scratch=$(mktemp -d "$out/merging.XXXXXX")
    trap 'rm -rf "$scratch"' EXIT
    cd "$scratch"
    sentences | "$kit/toolchain/bin/clang" -x c -O2 -fPIC -c - -o sentences.o
    ld -r --whole-archive "$out/libcommitgraph_c.a" "$kit/c/liblibc_c.a" sentences.o -o merged.o
    objcopy --wildcard --keep-global-symbol='cg_*' merged.o
    ld -shared -soname $soname -z noexecstack -z relro -z now merged.o -o new.so
    ar rcD new.a merged.o
    mv new.so "$shared"
    mv new.a "$archive"
)

# Proves and builds what is not built yet, or older than a source.
build() {
    names="$*"
    old=
    merges=no
    for name; do
        is_current "$name" || old="$old $name"
        [ "$name" != commitgraph_c ] || is_merged || merges=yes
    done
    [ -z "$old" ] || need rt python3
    [ $merges = no ] || need rt ld objcopy ar
    if [ -n "$old" ]; then
        echo "${old# }: proving and building; the first time takes some minutes" >&2
        python3 "$top/building/proving.py" $old >&2
    fi
    [ $merges = no ] || merge >&2
}

# Whether `git cgraph` is there, and no source of it, code or table, changed after it was built.
is_cgraph_current() {
    [ -x "$cgraph" ] && [ -x "$cgraph-texts" ] || return 1
    for source in "$top"/cgraph/Cargo.toml "$top"/cgraph/src/*.rs "$top"/cgraph/src/*/*.rs "$top/VERSION" \
        "$top/docs/MANUAL.md" "$top/tables/refusals.tsv" "$top/docs/PROGRAMS.md" "$top/tables/commands" "$top/tables/fields"; do
        [ ! "$source" -nt "$cgraph" ] || return 1
    done
}

# Builds `git cgraph`, at the path `cgraph`, if it is not built yet, or older than a source.
build_cgraph() {
    ! is_cgraph_current || return 0
    if ! command -v cargo >/dev/null; then
        echo "$names: for the build, the command cargo of Rust 1.77 or later has to be on the PATH" >&2
        return 1
    fi
    echo 'git cgraph: building; the first time takes some seconds' >&2
    cargo build --quiet --release --offline --manifest-path "$top/cgraph/Cargo.toml" --target-dir "$top/cgraph/target" >&2 || return 1
    touch "$cgraph"
}
