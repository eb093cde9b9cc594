#!/usr/bin/env bash
# Prints a model of fifteen variables in 0..1 and twenty constraints of fifteen terms, an objective that is
# defined by one of them included. Eighteen hold always and the last never does, so each of the 32,768 tuples is
# completed and tested against all of them.
set -eu
names=x1
for i in $(seq 2 15); do names=$names,x$i; done
for i in $(seq 1 15); do
  echo "var 0..1: x$i :: output_var;"
done
echo "var 0..14: sum :: output_var;"
echo "constraint int_lin_eq([1,1,1,1,1,1,1,1,1,1,1,1,1,1,-1],[x1,x2,x3,x4,x5,x6,x7,x8,x9,x10,x11,x12,x13,x14,sum],0) :: defines_var(sum);"
for i in $(seq 1 18); do
  echo "constraint int_lin_le([$i,-3,5,-7,11,-13,2,-4,6,-8,10,-12,9,-1,14],[$names],1000);"
done
echo "constraint int_lin_le([-1,-1,-1,-1,-1,-1,-1,-1,-1,-1,-1,-1,-1,-1,-1],[$names],-16);"
echo "solve maximize sum;"
