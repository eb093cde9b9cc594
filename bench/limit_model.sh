#!/usr/bin/env bash
# Prints a model at the limit of what is tried: six variables of seven values, and twenty constraints of six
# terms. The first nineteen always hold, so every tuple is tested against all of them, and the last never does.
set -eu
for i in 1 2 3 4 5 6; do
  echo "var 0..6: x$i :: output_var;"
done
for i in $(seq 1 19); do
  echo "constraint int_lin_le([$i,-3,5,-7,11,-13],[x1,x2,x3,x4,x5,x6],1000);"
done
echo "constraint int_lin_le([-1,-1,-1,-1,-1,-1],[x1,x2,x3,x4,x5,x6],-37);"
echo "solve minimize x1;"
