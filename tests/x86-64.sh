# How a C program that is linked with the library, which is for x86-64, is built and run here: on x86-64 as every other, on Arm with
# Debian's cross compiler and emulator. The Rattle kit is for x86-64 and has no emulator, so on Arm the library has to be brought from
# there. To be sourced in the root folder by a script that has `fail STATUS WORDS...`.
# shellcheck shell=bash
library=target/staticlib/libc_api.a

if [ "$(uname -m)" = x86_64 ]; then
    compiler=${CC:-cc}
    emulator=
else
    compiler=x86_64-linux-gnu-gcc
    emulator=$(command -v qemu-x86_64) || fail 2 "there is no emulator of x86-64, qemu-x86_64: tools/install-x86-64 installs Debian's"
fi
command -v "${compiler%% *}" > /dev/null || fail 2 "there is no compiler for x86-64, $compiler: tools/install-x86-64 installs Debian's"

# Proves the library and writes it, for every x86-64, where that is not done yet. The crate that is a static library has the exports alone;
# its archive keeps the name that C programs know.
make_library() {
    local log=target/staticlib.log made=crates/c_api_c/out/libc_api_c.a began
    if [ -f "$library" ] && [ -z "$(find crates.txt crates/*/{src,specs,proofs} -newer "$library" -type f -print -quit)" ]; then return; fi
    command -v rt > /dev/null || fail 2 'rt, the command of the Rattle kit, is not on the path'
    mkdir -p target
    began=$(date +%s.%N)
    (cd crates/c_api_c && rt lib --cpu x86-64) < /dev/null > "$log" 2>&1 || {
        tail -n 20 "$log" >&2
        [ "$(uname -m)" = x86_64 ] || fail 2 "there is no library: rt failed, and this machine is $(uname -m), while the Rattle kit is for x86-64; $log has all that rt said"
        fail 2 "there is no library, since c_api_c is not proved; $log has all that rt said"
    }
    [ -f "$made" ] || fail 2 "rt lib wrote no $made"
    install -D -m 644 "$made" "$library"
    touch -d "@$began" "$library" # what is edited meanwhile is newer
}

# Static, so that the program needs no loader of x86-64.
build() { # FILE SOURCES-AND-FLAGS...
    local flags=(-std=c11 -O2 -Wall -Wextra -Wpedantic -Wshadow -Wconversion -Werror -Iinclude -static)
    # The compiler may be several words.
    # shellcheck disable=SC2086
    $compiler "${flags[@]}" -o "$1" "${@:2}" "$library" || fail 2 "$1 does not build"
}

run_program() { # FILE WORDS...
    ${emulator:+"$emulator"} "$@"
}
