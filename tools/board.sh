# Sourced by scripts in bash, from the repository's root: images for the emulated board, an MPS2 with a Cortex-M4.
#   BOARD_CC      the words that compile and link one; -mcpu=, sources, an archive and -o come behind
#   BOARD         the words that run one; its name comes behind, and then perhaps
#   BOARD_TALKS   so that it has standard input and output, and an exit status
#   BOARD_COUNTS  so that its timer counts instructions (compare/cortex-m/cost.c)
#   BOARD_STEPS   so that it logs each instruction on standard error; -dfilter and a range of addresses come behind
# shellcheck shell=bash disable=SC2034
BOARD_CC=(arm-none-eabi-gcc -mthumb -mfloat-abi=soft -std=c99 -Wall -Wextra -Werror -Os -ffunction-sections -fdata-sections
    -Iinclude -Iexamples/cortex-m '-Wl,--gc-sections' '-Wl,-z,noexecstack' -nostartfiles -T examples/cortex-m/mps2.ld)
BOARD=(qemu-system-arm -M mps2-an386 -display none -monitor none -kernel)
BOARD_TALKS=(-serial none -semihosting-config 'enable=on,target=native')
BOARD_COUNTS=(-icount 'shift=10,sleep=off')
BOARD_STEPS=(-singlestep -d 'exec,nochain')
# From QEMU 8.1 on it has another name, and the old one is gone from newer ones.
[[ $("${BOARD[0]}" -help 2>/dev/null) != *one-insn-per-tb* ]] || BOARD_STEPS=(-accel 'tcg,one-insn-per-tb=on' -d 'exec,nochain')
