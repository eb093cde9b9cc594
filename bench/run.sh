#!/usr/bin/env bash
# Times the built programs: on the model at the limit, on 32,768 tuples over twenty constraints, on chains of defined
# variables, on texts at the limit, which are shown, refused for their many variables, and refused for one byte too many;
# a sum of 1,000 terms, round after round; and, over sums of 30, 300 and 1,000 terms, ends asked one by one and all at
# once, and views that are kept.
set -eu
cd "$(dirname "$0")/.."
program=crates/dombreak/out/dombreak
scratch=$(mktemp -d)
trap 'rm -rf "$scratch"' EXIT

# timed COMMAND MODEL: three times, with seconds and the peak of memory
timed() {
  for turn in 1 2 3; do
    /usr/bin/time -q -f "  turn $turn: %e s, %M kB" "$program" "$1" "$2" 2>&1 >"$scratch/printed" | sed 's/^dombreak/  &/' || true
  done
}

bench/limit_model.sh >"$scratch/limit.fzn"
bench/tuples.sh >"$scratch/tuples.fzn"
bench/long_text.py 4096 >"$scratch/shown.fzn"
bench/long_text.py 100000 >"$scratch/many.fzn"
bench/long_text.py 4096 16777217 >"$scratch/long.fzn"
echo "the model at the limit, solved"
timed solve "$scratch/limit.fzn"
echo "32,768 tuples over twenty constraints of fifteen terms, solved"
timed solve "$scratch/tuples.fzn"
for count in 25000 50000 100000; do
  for order in forwards backwards; do
    bench/chain.py "$count" "$order" >"$scratch/chain.fzn"
    echo "a chain of $count variables, $order, solved"
    timed solve "$scratch/chain.fzn"
  done
done
echo "16,777,216 bytes with 4,096 variables, shown"
timed show "$scratch/shown.fzn"
echo "16,777,216 bytes with 100,000 variables, too many of which are free"
timed show "$scratch/many.fzn"
echo "16,777,217 bytes, which are too long"
timed show "$scratch/long.fzn"
sum=crates/bench_linear/out/bench_linear
"$sum" >"$scratch/counts"
cmp "$scratch/counts" crates/bench_linear/stdout

# summed WORD..: three times, with seconds, those of the processor, and the peak of memory
summed() {
  for turn in 1 2 3; do
    /usr/bin/time -q -f "  turn $turn: %e s, %U s of the processor, %M kB" "$sum" "$@" 2>&1 >"$scratch/counts"
  done
  tail -n 1 "$scratch/counts" | sed 's/^/  /'
}

echo "100 rounds of a sum of 1,000 terms"
summed rounds
for size in 30 300 1000; do
  for work in next visit keeps; do
    echo "$work over a sum of $size terms"
    summed "$work" "$size"
  done
done
