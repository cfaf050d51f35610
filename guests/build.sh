#!/usr/bin/env bash
# build.sh: builds the example guests to NAME.elf beside their sources.
# Needs Debian's gcc-riscv64-unknown-elf, binutils-riscv64-unknown-elf and picolibc-riscv64-unknown-elf.
set -eu
case ${1:-} in -h | --help) sed -n '2,/^set/s/^# //p' "$0"; exit ;; esac
[ $# = 0 ] || { echo "${0##*/} takes no words: $*" >&2; exit 2; }
cd "$(dirname "$0")"
cc=${RISCV_CC:-riscv64-unknown-elf-gcc}
warnings=(-Wall -Wextra -Werror)
start=(-nostartfiles -T link.ld "-Wl,--build-id=none")

bare() { # OUT TARGET FLAG.. SOURCE..: without a C library
  local out=$1 target=$2
  shift 2
  "$cc" "-march=$target" -mabi=ilp32 "${warnings[@]}" -ffreestanding "${start[@]}" -nostdlib "$@" -lgcc -o "$out"
}

for name in sort mix; do
  bare "$name.elf" rv32ima -O2 -s start.S "$name.c"
done
bare tally.elf rv32ima -O2 -s tally.S

# One of each kind of program; they keep their symbols, by which tools/sweep and tools/why name functions.
objects=$(mktemp -d)
trap 'rm -rf "$objects"' EXIT
"$cc" -march=rv32ima -mabi=ilp32 -c start.S -o "$objects/start.o"
small=(-Os -ffunction-sections "-Wl,--strip-debug" -I . "$objects/start.o")
with_library() { # OUT TARGET SOURCE..: with picolibc
  local out=$1 target=$2
  shift 2
  "$cc" "-march=$target" -mabi=ilp32 "${warnings[@]}" --specs=picolibc.specs "${start[@]}" "${small[@]}" picolibc.c "$@" -lm -o "$out"
}
bare_kinds=(checksum filter machine unpacking atomics)
kinds=(interpreter sorting logging control)
for name in "${bare_kinds[@]}"; do
  bare "kinds/$name.elf" rv32ima "${small[@]}" "kinds/$name.c"
done
for name in "${kinds[@]}"; do
  with_library "kinds/$name.elf" rv32im "kinds/$name.c"
done

# Those without a library in one program, built for speed, so that each phase has loops of its own.
mkdir "$objects/phases"
for name in "${bare_kinds[@]}"; do
  "$cc" -march=rv32ima -mabi=ilp32 "${warnings[@]}" -ffreestanding -O3 -funroll-loops -ffunction-sections -I . -Dmain="$name" -c "kinds/$name.c" -o "$objects/phases/$name.o"
done
bare kinds/phases.elf rv32ima "${small[@]}" kinds/phases.c "$objects"/phases/*.o
