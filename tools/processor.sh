# Sourced by scripts in bash: the processor that `make controller` and `make install` are told of. From the environment:
#   CPU         cortex-m0, cortex-m0+, cortex-m3, cortex-m4 (if nothing is said), cortex-m7, cortex-m33 or riscv32; any other
#               name with TARGET
#   TARGET      another processor, as clang's --target
#   FLAGS       more words for clang, as -mcpu=cortex-m23
#   OPT         -Os (if nothing is said), -O1, -O2, -O3 or -Oz
#   UNALIGNED   no: no word at an odd address is used, so that the processor may trap those
# `processor` sets
#   BUILD       a name for what is built so, for a folder: the processor, and what differs from the options where none is said
#   WORDS       the words for clang
#   ODD         yes, no or unknown: whether the code has words at odd addresses
#   WHY         where these are wrong, in one line why; it is false then
# shellcheck shell=bash disable=SC2034
PROCESSORS='cortex-m0, cortex-m0+, cortex-m3, cortex-m4, cortex-m7, cortex-m33 or riscv32'

processor() {
    local cpu=${CPU:-${TARGET:-cortex-m4}} opt=${OPT:--Os} unaligned=${UNALIGNED:-yes} more
    [ "$cpu" != cortex-m0+ ] || cpu=cortex-m0plus # as clang has it
    case ${TARGET:+other}-$cpu in
    other-*) WORDS=("--target=$TARGET") ODD=unknown ;;
    -cortex-m0 | -cortex-m0plus) WORDS=(--target=thumbv6m-none-eabi "-mcpu=$cpu" -mfloat-abi=soft) ODD=no ;;
    -cortex-m3) WORDS=(--target=thumbv7m-none-eabi "-mcpu=$cpu" -mfloat-abi=soft) ODD=yes ;;
    -cortex-m4 | -cortex-m7) WORDS=(--target=thumbv7em-none-eabi "-mcpu=$cpu" -mfloat-abi=soft) ODD=yes ;;
    -cortex-m33) WORDS=(--target=thumbv8m.main-none-eabi "-mcpu=$cpu" -mfloat-abi=soft) ODD=yes ;;
    -riscv32) WORDS=(--target=riscv32-unknown-elf -march=rv32imac -mabi=ilp32) ODD=no ;;
    *) WHY="no CPU=$cpu is known: take $PROCESSORS, or give another's TARGET= and FLAGS= (docs/PORTING.md)"; return 1 ;;
    esac
    case $cpu in *[!A-Za-z0-9._-]* | . | ..) WHY="CPU=$cpu is no name for a folder: letters, digits and ._- alone"; return 1 ;; esac
    case $opt in -O[123sz]) ;; *) WHY="no OPT=$opt is known: take -Os or -O3 (or -O1, -O2, -Oz)"; return 1 ;; esac
    BUILD=$cpu
    [ "$opt" = -Os ] || BUILD+=$opt
    case $unaligned-$ODD in
    yes-* | no-no) ;;
    no-*)
        case ${WORDS[0]} in --target=arm* | --target=thumb*) WORDS+=(-mno-unaligned-access) ;; *) WORDS+=(-mstrict-align) ;; esac
        ODD=no BUILD+=-aligned
        ;;
    *) WHY="UNALIGNED=$unaligned is neither yes nor no"; return 1 ;;
    esac
    read -ra more <<<"${FLAGS-}"
    # Each of these in the name too, with _ for what a folder's name should not have.
    [ ${#more[@]} -eq 0 ] || BUILD+=$(printf -- '-%s' "${more[@]#-}" | tr -c 'A-Za-z0-9._-' _)
    WORDS+=("${more[@]}" "$opt")
}
