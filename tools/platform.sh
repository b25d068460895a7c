# Sourced by scripts in bash. rt compiles for x86-64 alone, so an Arm machine compiles what links with its archives by a
# cross compiler, and runs it under an emulator.
#   HOST_CC    the C compiler for x86-64
#   HOST_SIZE  prints the sizes of an x86-64 archive's sections
#   RUN_X86    the words that stand before an x86-64 program where it is run, as tools/x86 does
# shellcheck shell=bash disable=SC2034

# The toolchain brings a C library of its own, for x86-64.
kit() { echo "$(dirname -- "$(rt doc </dev/null)")/toolchain"; }

# Sets RUN_X86. The loader is named outright, and where its libraries are: where an emulator looks for them by itself
# differs from one system to the next.
run_with() { # EMULATOR FOLDERS: the first folder with a C library
    local emulator=$1 lib
    shift
    for lib; do
        if [ -e "$lib/ld-linux-x86-64.so.2" ] && [ -e "$lib/libc.so.6" ]; then
            RUN_X86=("$emulator" "$lib/ld-linux-x86-64.so.2" --library-path "$lib")
            return 0
        fi
    done
    return 1
}

find_emulator() {
    local emulator
    emulator=$(command -v qemu-x86_64) ||
        { echo "tools/platform.sh: there is no qemu-x86_64 (Debian: qemu-user)" >&2; return 1; }
    run_with "$emulator" /usr/x86_64-linux-gnu/lib /usr/x86_64-linux-gnu/lib64 || run_with "$emulator" "$(kit)/lib" ||
        { echo "tools/platform.sh: there is no C library for x86-64 (Debian: libc6-amd64-cross)" >&2; return 1; }
}

case $(uname -m) in
x86_64)
    HOST_CC=gcc
    HOST_SIZE=size
    RUN_X86=()
    ;;
aarch64)
    HOST_CC=x86_64-linux-gnu-gcc
    HOST_SIZE=x86_64-linux-gnu-size
    find_emulator || return 1
    ;;
*)
    echo "tools/platform.sh: no support for this machine, $(uname -m)" >&2
    return 1
    ;;
esac
