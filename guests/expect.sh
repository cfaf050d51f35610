#!/usr/bin/env bash
# expect.sh: writes what each guest is to write, and its status, into the folder expect beside it, from qemu-riscv32
# (Debian's qemu-user). NAME.in is the input; a guest without one gets no input.
set -eu
case ${1:-} in -h | --help) sed -n '2,/^set/s/^# //p' "$0"; exit ;; esac
[ $# = 0 ] || { echo "${0##*/} takes no words: $*" >&2; exit 2; }
cd "$(dirname "$0")"
for file in *.elf kinds/*.elf; do
  expected=$(dirname "$file")/expect/$(basename "$file" .elf)
  mkdir -p "$(dirname "$expected")"
  input=$expected.in
  [ -f "$input" ] || input=/dev/null
  status=0
  qemu-riscv32 "$file" <"$input" >"$expected.out" 2>"$expected.err" || status=$?
  echo "$status" >"$expected.status"
done
