# Sourced by tests in bash, from the repository's root, where there is an archive: hosts on the bench of tests/gun. Both count
# in passed and failed.
#   on_bench NAME BENCH                  links the bench, with the host that it includes, into build/NAME, and runs its trials
#   bench_finds BENCH HOST TRIAL EDIT    with that host edited by sed this trial must fail
# shellcheck shell=bash
# shellcheck source=tools/platform.sh
. tools/platform.sh || { echo '0 passed, 1 failed'; exit 1; }
count='^([0-9]+) passed, ([0-9]+) failed$'

link_bench() { # NAME BENCH WORDS: without inlining, so that each function has a stack of its own, as in a larger firmware
    "$HOST_CC" -std=c99 -Wall -Wextra -Werror -O1 -fno-inline -Iinclude -Iexamples -Itests/second -o "build/$1" "${@:2}" \
        tests/gun/{line,interrupt,trials}.c tests/host/{check,lend,rig}.c target/staticlib/libslave.a >build/bench.log 2>&1
}

on_bench() {
    if link_bench "$1" "$2" && timeout 200 tools/x86 "build/$1" >build/bench.log 2>&1 &&
        [[ $(tail -n 1 build/bench.log) =~ $count ]]; then
        passed=$((passed + BASH_REMATCH[1]))
        echo "$2: ${BASH_REMATCH[0]}"
    else
        failed=$((failed + 1))
        tail -n 40 build/bench.log
        echo "$2: its trials have failed"
    fi
}

bench_finds() {
    sed "$4" "$2" >build/edited_host.c
    if cmp -s "$2" build/edited_host.c; then
        failed=$((failed + 1))
        echo "$2 has nothing for the edit $4"
    elif ! link_bench edited_host "$1" -w '-DHOST="../../build/edited_host.c"'; then
        failed=$((failed + 1))
        cat build/bench.log
        echo "$2 with the edit $4 was not built"
    elif timeout 200 tools/x86 build/edited_host "$3" >build/bench.log 2>&1 || ! [[ $(tail -n 1 build/bench.log) =~ $count ]]; then
        failed=$((failed + 1))
        tail -n 5 build/bench.log
        echo "$2 passes the trial $3 with the edit $4, or ended without a count"
    else
        passed=$((passed + 1))
    fi
}
