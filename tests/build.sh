# Sourced by the tests in C, from the repository's root.
#   build_and_run NAME SOURCES   links the sources with the slave into build/NAME, and runs it
# With XCP_ARCHIVE another archive is linked, and none is made: a stand-in for ours, or one for another processor. That one
# also needs XCP_CC, the words of its compiler, and XCP_RUN, the words that run its programs; XCP_BUILD is a folder for them.
# shellcheck shell=bash
# shellcheck source=tools/platform.sh
. tools/platform.sh || { echo '0 passed, 1 failed'; exit 1; }

give_up() { # WORDS LOG: the count that the gate wants, where no test could run
    cat -- "$2"
    echo "$1"
    echo '0 passed, 1 failed'
    exit 1
}

build_and_run() {
    local folder=${XCP_BUILD:-build} archive=${XCP_ARCHIVE-} libraries=() compiler=("$HOST_CC") run=(tools/x86)
    local program=$folder/$1 log=$folder/$1.log
    shift
    mkdir -p "$folder" || exit 1
    [ -z "${XCP_CC-}" ] || read -ra compiler <<<"$XCP_CC"
    [ -z "${XCP_RUN-}" ] || read -ra run <<<"$XCP_RUN"
    # What would take minutes under an emulator asks for this.
    [ -z "${XCP_RUN-}${RUN_X86[*]}" ] || export XCP_EMULATED=yes
    if [ -n "$archive" ]; then
        libraries=(-lpthread -ldl -lm)
    else
        archive=target/staticlib/libslave.a
        tools/archive >"$log" 2>&1 || give_up 'there is no archive to link' "$log"
    fi
    "${compiler[@]}" -std=c99 -Wall -Wextra -Werror -O1 -Iinclude -o "$program" "$@" "$archive" \
        "${libraries[@]}" >"$log" 2>&1 || give_up "$program was not built" "$log"
    # A program that breaks without a count still ends in one.
    "${run[@]}" "$program" | tee "$log"
    local status=${PIPESTATUS[0]}
    if ! tail -n 1 "$log" | grep -qE '^[0-9]+ passed, [0-9]+ failed$'; then
        give_up "$program ended with status $status and no count" /dev/null
    fi
    exit "$status"
}
