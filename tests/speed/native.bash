# Sourced by tests/speed/run and by the `run` of lent, board, pair and polls: the proved code of a crate as native code. On x86-64 that is what was
# built. On another processor, or with SPEED_FROM_IR=1, its LLVM module is compiled for the machine's own: `from_ir` is 1 then.
# They have `room`, a folder below target/ for what is made.

fail() {
    echo "speed: $*" >&2
    exit 1
}

# needs TOOL..: each is there
needs() {
    local tool
    for tool; do command -v "$tool" >/dev/null || fail "$tool is missing"; done
}

export LC_ALL=C
needs rt
mkdir -p "$room"
from_ir=${SPEED_FROM_IR:-0}
[ "$(uname -m)" = x86_64 ] || from_ir=1
kit=$(dirname "$(rt doc)")
tools=$kit/toolchain
"$tools/bin/clang" --version >/dev/null 2>&1 || fail "the kit has no toolchain for this machine"
clang=("$tools/bin/clang" --target="$(uname -m)-unknown-linux-gnu")

# built_before FILE HOW: it is there, and no source is newer
built_before() {
    [ -f "$1" ] || fail "$1 is missing: $2 builds it"
    local newer
    newer=$(find crates.txt crates/*/{src,specs,proofs} -type f -newer "$1" -print -quit 2>/dev/null || true)
    [ -z "$newer" ] || fail "$1 is older than $newer: $2 builds it"
}

# A toolchain folder whose clang keeps the module that it is handed, and its words. (It has no link, as rt takes none in a repository.)
keeping_toolchain() {
    local tool
    mkdir -p "$room/toolchain/bin"
    cp -r "$tools/lib" "$room/toolchain/"
    for tool in ld.lld llvm-ar; do
        printf '#!/bin/sh\nexec "%s" "$@"\n' "$tools/bin/$tool" >"$room/toolchain/bin/$tool"
        chmod +x "$room/toolchain/bin/$tool"
    done
    cat >"$room/toolchain/bin/clang" <<END
#!/bin/sh
printf '%s\n' "\$@" >"$PWD/$room/words"
cp module.bc "$PWD/$room/module.bc"
exec "$tools/bin/clang" "\$@"
END
    chmod +x "$room/toolchain/bin/clang"
}

# keep_module CRATE ROOT WORD..: builds a crate by the words of rt, but with that toolchain. Nothing is built unless the crate is proved.
keep_module() {
    local words=(--crate-name "$1" "src/$2" --extern "std=$kit/rlibs/std.rlib" -L "dependency=$kit/rlibs") names name built
    read -ra names < <(sed -nE "s/^$1( staticlib)?: *//p" crates.txt)
    for name in "${names[@]}"; do
        built=$PWD/crates/$name/out/rlib/$name.rlib
        [ -d "crates/$name" ] || built=$kit/rlibs/$name.rlib
        words+=(--extern "$name=$built")
    done
    for built in "$PWD"/crates/*/out/rlib; do words+=(-L "dependency=$built"); done
    words+=(--antt-project "$kit/rattle/logic/antt-project.json" --logic-built "$kit/logic_built" --links "$1=" --backend llvm)
    rm -f "$room/module.bc"
    (cd "crates/$1" && "$kit/bin/rattle" build "${words[@]}" "${@:3}" --toolchain "$OLDPWD/$room/toolchain") >"$room/build.log" 2>&1 ||
        fail "$1 was not built; $room/build.log says why"
    [ -f "$room/module.bc" ] || fail "rattle no longer hands clang a file module.bc; $room/words has what it does"
}

# compile_module OBJECT: compiles the module with the words that rattle gives clang, all but those that name the processor.
compile_module() {
    local words=() word
    while IFS= read -r word; do
        case $word in
        --target=* | -march=* | --sysroot=* | -Werror) ;;
        module.bc) words+=("$room/module.bc") ;;
        module.o) words+=("$1") ;;
        *) words+=("$word") ;;
        esac
    done <"$room/words"
    "${clang[@]}" "${words[@]}" >"$room/clang.log" 2>&1 || fail "the module was not compiled; $room/clang.log says why"
}

# native_object OBJECT BUILT CRATE ROOT WORD..: the object of a crate for the machine's own processor, anew where what rt built is newer
native_object() {
    if [ -f "$1" ] && [ ! "$2" -nt "$1" ]; then return; fi
    echo "speed: getting the LLVM module of $3, which proves it again" >&2
    keeping_toolchain
    keep_module "${@:3}"
    compile_module "$1"
}

# proved_library NAME: what is to be linked of the calls of a crate for C, in `proved`, and what that is, in `way`
proved_library() {
    local archive=target/staticlib/lib$1.a
    built_before "$archive" "tools/fresh speed archive $1"
    if [ "$from_ir" = 1 ]; then
        proved=$room/$1.o
        native_object "$proved" "$archive" "${1}_c" lib.rt --crate-type staticlib -o "$PWD/$room/kept.a"
        way="the LLVM module of $archive, compiled for $(uname -m) by the kit's clang at -O3"
    else
        proved=$archive
        way="$archive as built, native x86-64"
    fi
}

export CARGO_TARGET_DIR=$PWD/target/tests
crate=(--quiet --offline --locked --manifest-path tests/speed/Cargo.toml)
plain_way="Rust, cargo build --release (opt-level 3, default flags), native $(uname -m)"

# plain_tested [TEST]: the plain code does what the model does
plain_tested() {
    cargo test "${crate[@]}" ${1:+--test "$1"} >"$room/test.log" 2>&1 || fail "the plain code does not do what the model does; $room/test.log says where"
}

# times_of PROGRAM PROVED..: builds a program of src/bin with the proved code linked in, and runs it
times_of() {
    local sum file links=()
    # cargo does not see that the proved code changed, but does see its checksum
    sum=$(cat "${@:2}" | cksum)
    for file in "${@:2}"; do links+=(-C "link-arg=$PWD/$file"); done
    cargo rustc --release "${crate[@]}" --features proved --bin "$1" -- "${links[@]}" -C metadata="${sum%% *}"
    "$CARGO_TARGET_DIR/release/$1"
}
