# Read by the scripts beside it. The library and the programs are compiled for x86-64. This says how C that links with them is compiled and
# how a program for x86-64 is run here: `build_c OUT FILES..` and `run86 PROGRAM ARGS..`; and `need_c` installs what that needs.
# On an Arm machine a cross compiler builds and an emulator runs that the older kit had, and today's has not; elsewhere both are direct.
# `build_safe OUT FILES..` is for a program that the machine runs itself, under the sanitizers: it links the library; on an Arm machine, where
# that cannot be, the second implementation under the library's names.
kit=${RATTLE_HOME:-$(cd "$(dirname "$(readlink -f "$(command -v rt)")")/.." && pwd -P)}
flags='-std=c11 -Wall -Wextra -Werror -O3'
safe_flags='-std=c11 -Wall -Wextra -Werror -O2 -g -fsanitize=address,undefined -fno-sanitize-recover=all'

if [ "$(uname -m)" = aarch64 ]; then
    tools=$kit/on/aarch64/toolchain
    need_c() {
        command -v x86_64-linux-gnu-gcc >/dev/null ||
            { apt-get -qq update && apt-get -qq install -y gcc-x86-64-linux-gnu libc6-dev-amd64-cross; } >/dev/null
    }
    # static, so that the emulator needs no folder of libraries
    build_c() { x86_64-linux-gnu-gcc $flags -static -o "$@"; }
    # the C library is told not to copy by `rep movsb`, which the emulator does byte by byte
    run86() { GLIBC_TUNABLES=glibc.cpu.hwcaps=-ERMS "$tools/bin/qemu-x86_64" "$@"; }
    build_safe() {
        local call renamed=
        for call in format check report read write release build_table read_with_table write_with_table release_with_table; do
            renamed="$renamed -Dshellwaltz_$call=second_$call"
        done
        cc $safe_flags $renamed -o "$@" second/second.c
    }
    # a program that rt has linked wants the kit's loader and C library
    run_linked() { run86 "$tools/lib/ld-linux-x86-64.so.2" --library-path "$tools/lib" "$@"; }
else
    need_c() { :; }
    build_c() { cc $flags -o "$@"; }
    build_safe() { cc $safe_flags -o "$@" target/staticlib/libshellwaltz_c.a; }
    run86() { "$@"; }
    run_linked() { "$@"; }
fi
