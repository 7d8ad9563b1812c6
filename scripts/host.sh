# What builds and runs programs for x86-64 Linux here, where the library's archive belongs; to be sourced by bash.
# On an x86-64 machine, as which the toolchain's own programs run, that is gcc and cargo. On any other it is Debian's
# cross compiler, a Rust that has the x86-64 standard library, and the emulator of qemu-user. What is missing is
# installed by apt-get where this runs as root, and else named.
#
#   want_runner     sets RUN, the words before an x86-64 program that is to be run
#   want_compiler   sets CC
#   want_cargo      sets CARGO, and in the environment what cargo needs to build and run for RUST_TARGET
#   want_callers    all three, and LIBRARY, the folder of the archive to link
#   in_cargo        after want_cargo: runs cargo on a package of this tree

RUST_TARGET=x86_64-unknown-linux-gnu
cross_root=/usr/x86_64-linux-gnu

is_x86_64() {
    [ "$(uname -m)" = x86_64 ]
}

has() {
    command -v "$1" >/dev/null
}

# runs a command; what it says is shown only where it fails
quietly() {
    local said
    said=$("$@" 2>&1) || { printf '%s\n' "$said" >&2; return 1; }
}

install_packages() {
    if [ "$(id -u)" != 0 ] || ! has apt-get; then
        echo "please install these Debian packages, or what has the same: $*" >&2
        return 1
    fi
    quietly apt-get install -y --no-install-recommends "$@" 2>/dev/null && return
    quietly apt-get update && quietly apt-get install -y --no-install-recommends "$@"
}

# The toolchain's folder.
toolchain() {
    dirname "$(dirname "$(readlink -f "$(command -v rt)")")"
}

# The emulator takes loader and C library from one place: of two versions of one C library it would mix them.
want_runner() {
    RUN=()
    is_x86_64 && return
    has qemu-x86_64 || install_packages qemu-user || return
    [ -e "$cross_root/lib/libc.so.6" ] || install_packages libc6-amd64-cross || return
    RUN=(qemu-x86_64 -L "$cross_root" -E "LD_LIBRARY_PATH=$cross_root/lib")
}

want_compiler() {
    if is_x86_64; then
        CC=gcc
        has gcc || install_packages gcc libc6-dev
    else
        CC=x86_64-linux-gnu-gcc
        { has $CC && [ -e "$cross_root/include/stdio.h" ]; } || install_packages gcc-x86-64-linux-gnu libc6-dev-amd64-cross
    fi
}

# whether a rustc is there and has the standard library of RUST_TARGET
builds_for_target() {
    has "$1" && [ -d "$("$1" --print target-libdir --target "$RUST_TARGET" 2>/dev/null)" ]
}

install_rust() {
    if is_x86_64; then
        install_packages rustc cargo
    else
        [ "$(id -u)" != 0 ] || ! has dpkg || quietly dpkg --add-architecture amd64
        install_packages rustc cargo libstd-rust-dev:amd64
    fi
}

# The rustc on the path, or Debian's where only that one has what is needed.
want_cargo() {
    want_compiler && want_runner || return
    CARGO=cargo
    if ! builds_for_target rustc; then
        builds_for_target /usr/bin/rustc || install_rust || return
        CARGO=/usr/bin/cargo
        export RUSTC=/usr/bin/rustc RUSTDOC=/usr/bin/rustdoc
    fi
    is_x86_64 && return
    export CARGO_TARGET_X86_64_UNKNOWN_LINUX_GNU_LINKER=$CC
    export CARGO_TARGET_X86_64_UNKNOWN_LINUX_GNU_RUNNER="${RUN[*]}"
}

# in_cargo FOLDER COMMAND WORDS...: nothing is fetched, and CARGO_TARGET_DIR is the caller's to choose
in_cargo() {
    local folder=$1 command=$2
    shift 2
    "$CARGO" "$command" --manifest-path "$folder/Cargo.toml" --offline --locked --target "$RUST_TARGET" "$@"
}

# module_for_here FOLDER: the archive as it would be for this machine, which is not x86-64: the LLVM module that the
# archive is made of, compiled for here. rt is lent a copy of its toolchain whose clang keeps what it is given.
module_for_here() {
    local folder=$1 home
    home=$(toolchain)
    cp -as "$home" "$folder/kit"
    cp --remove-destination "$home/bin/rt" "$home/bin/rtlib.py" "$folder/kit/bin"
    rm "$folder/kit/toolchain/bin/clang"
    printf '#!/bin/sh\nfor word; do case $word in *.bc) cp "$word" "%s/module.bc" ;; esac; done\nexec "%s" "$@"\n' \
        "$folder" "$home/toolchain/bin/clang" >"$folder/kit/toolchain/bin/clang"
    chmod +x "$folder/kit/toolchain/bin/clang"
    (cd crates/melvorash_c_c && quietly "$folder/kit/bin/rt" lib) || return
    quietly "$home/toolchain/bin/clang" --target="$(uname -m)-unknown-linux-gnu" -Wno-override-module -O3 -fPIC -c -x ir \
        "$folder/module.bc" -o "$folder/module.o" || return
    objcopy $(printf -- '--redefine-sym melvorash_%s ' cut=module_cut base=module_base explicit=module_explicit \
        resolve=module_resolve order_line=module_order_line order_lines=module_order_lines marks=module_marks) \
        "$folder/module.o" || return
    gcc -std=c99 -O2 -fPIC -Iinclude -c tests/c/elsewhere.c -o "$folder/elsewhere.o" &&
        ar rcs "$folder/libmelvorash_c.a" "$folder/module.o" "$folder/elsewhere.o"
}

# want_callers FOLDER: what callers of the archive are built and run with. Where a machine that is not x86-64 cannot
# have the tools for it, they are built for that machine, with the module for here, and it says so.
want_callers() {
    LIBRARY=$PWD/target/staticlib
    want_cargo && return
    is_x86_64 && return 1
    echo 'no tools for x86-64 here: the callers are built for this machine, with the library as compiled for it'
    unset RUSTC RUSTDOC
    RUST_TARGET=$(rustc -vV | sed -n 's/^host: //p')
    RUN=() CC=gcc CARGO=cargo LIBRARY=$1
    module_for_here "$1"
}
