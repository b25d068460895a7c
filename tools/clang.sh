# Sourced by scripts in bash. The toolchain's own compiler, which knows many processors.
#   KIT    the toolchain's folder
#   CLANG  its C compiler, for LLVM modules too
#   AR, LD make archives of what that compiles, and put it together
# shellcheck shell=bash disable=SC2034
KIT=$(dirname -- "$(rt doc </dev/null)")
CLANG=$KIT/toolchain/bin/clang
AR=$KIT/toolchain/bin/llvm-ar
LD=$KIT/toolchain/bin/ld.lld
