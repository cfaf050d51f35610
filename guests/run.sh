#!/usr/bin/env bash
# run.sh COMMAND..: runs each guest by 'COMMAND.. plain NAME.elf' and, through caches of several sizes, by
# 'COMMAND.. cached NAME.elf', on the input that expect/ has for it, and compares output, error output and
# status. Its own status is 0 where all agree.
set -u
case ${1:-} in -h | --help) sed -n '2,/^set/s/^# //p' "$0"; exit ;; esac
here=$(cd "$(dirname "$0")" && pwd)
[ $# -gt 0 ] || { echo "usage: run.sh COMMAND.." >&2; exit 2; }
work=$(mktemp -d)
trap 'rm -rf "$work"' EXIT
passed=0
failed=0

# Runs a guest by these words and compares.
compare() { # EXPECTED WORD..
  local expected=$1 input status=0 wrong=
  shift
  input=$expected.in
  [ -f "$input" ] || input=/dev/null
  "$@" <"$input" >"$work/out" 2>"$work/err" || status=$?
  cmp -s "$work/out" "$expected.out" || wrong="$wrong output"
  cmp -s "$work/err" "$expected.err" || wrong="$wrong error-output"
  [ "$status" = "$(cat "$expected.status")" ] || wrong="$wrong status=$status"
  if [ -z "$wrong" ]; then
    passed=$((passed + 1))
  else
    failed=$((failed + 1))
    echo "$* differs in:$wrong"
  fi
}

for file in "$here"/*.elf "$here"/kinds/*.elf; do
  expected=$(dirname "$file")/expect/$(basename "$file" .elf)
  compare "$expected" "$@" plain "$file"
  compare "$expected" "$@" cached "$file"
  compare "$expected" "$@" cached "$file" --cache 512 --block 16
done

echo "$passed passed, $failed failed"
[ "$failed" -eq 0 ]
