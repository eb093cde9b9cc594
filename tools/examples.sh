#!/usr/bin/env bash
# Solves every model under examples/, and those that tools/limit_models.sh writes, with the built program, and
# compares what it prints, what it tells on standard error and its status with the files beside the model: NAME.out,
# NAME.err (none: nothing) and NAME.status (none: 0). Where there is a NAME.shown, the model is shown as well, and
# what is printed compared with it. Then looks at what ./dombreak tells where it is asked for help. The last line
# counts.
set -u
cd "$(dirname "$0")/.." || exit 2
program=crates/dombreak/out/dombreak
if [ ! -x "$program" ]; then
  echo "tools/examples.sh: the program is not built" >&2
  echo "0 passed, 1 failed"
  exit 1
fi
scratch=$(mktemp -d) || exit 2
trap 'rm -rf "$scratch"' EXIT
passed=0
failed=0

# wanted FILE: the file's bytes, nothing where there is none
wanted() { if [ -f "$1" ]; then cat "$1"; fi; }

# compare COMMAND MODEL STATUS: what the program prints, tells and ends with against what is wanted in the scratch
compare() {
  "$program" "$1" "$2" >"$scratch/out" 2>"$scratch/err"
  local status=$?
  if cmp -s "$scratch/out" "$scratch/wanted_out" && cmp -s "$scratch/err" "$scratch/wanted_err" && [ "$status" -eq "$3" ]; then
    passed=$((passed + 1))
  else
    failed=$((failed + 1))
    echo "FAILED $1 $2 (status $status)"
    diff "$scratch/wanted_out" "$scratch/out" | head -n 20
    diff "$scratch/wanted_err" "$scratch/err" | head -n 20
  fi
}

# compare_help WORD..: the script tells that the words are refused, and then how the program is used
compare_help() {
  ./dombreak "$@" >"$scratch/out" 2>"$scratch/err"
  local status=$?
  if [ ! -s "$scratch/out" ] && [ "$status" -eq 3 ] && [ "$(head -n 1 "$scratch/err")" = "dombreak: words refused" ] &&
    [ "$(sed -n 2p "$scratch/err")" = "usage: ./dombreak solve MODEL" ]; then
    passed=$((passed + 1))
  else
    failed=$((failed + 1))
    echo "FAILED ./dombreak $* (status $status)"
    cat "$scratch/err"
  fi
}

mkdir "$scratch/limits"
tools/limit_models.sh "$scratch/limits" || exit 2

while IFS= read -r model; do
  base=${model%.fzn}
  wanted "$base.out" >"$scratch/wanted_out"
  wanted "$base.err" >"$scratch/wanted_err"
  wanted_status=0
  if [ -f "$base.status" ]; then wanted_status=$(cat "$base.status"); fi
  compare solve "$model" "$wanted_status"
  if [ -f "$base.shown" ]; then
    cp "$base.shown" "$scratch/wanted_out"
    : >"$scratch/wanted_err"
    compare show "$model" 0
  fi
done < <(find examples "$scratch/limits" -name '*.fzn' | sort)

compare_help
compare_help --help

echo "$passed passed, $failed failed"
[ "$failed" -eq 0 ] && [ "$passed" -gt 0 ]
