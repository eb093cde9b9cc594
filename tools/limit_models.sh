#!/usr/bin/env bash
# Writes into a folder the models at the limits that are too large to be kept under examples/, each with what is
# wanted of it beside it, named as there:
#
#     tools/limit_models.sh FOLDER
set -eu
cd "$1"

# the most variables, of one value each
awk 'BEGIN {
  for (i = 1; i <= 4096; i++) {
    print "var 0..0: x" i " :: output_var;" >"most_variables.fzn"
    print "x" i " = 0;" >"most_variables.out"
  }
  print "solve satisfy;" >"most_variables.fzn"
  print "----------\n==========" >"most_variables.out"
}'
cp most_variables.fzn most_variables.shown

# one variable more
{ echo "var 0..0: x0;"; cat most_variables.fzn; } >too_many_variables_to_solve.fzn
echo "dombreak: model refused: too many free variables: 4097" >too_many_variables_to_solve.err
echo 2 >too_many_variables_to_solve.status

# constraints NUMBER: a model with so many
constraints() {
  echo "var 0..1: x :: output_var;"
  yes "constraint int_lin_le([-1],[x],-1);" | head -n "$1"
  echo "solve satisfy;"
}

# the most constraints
constraints 100000 >most_constraints.fzn
printf 'x = 1;\n----------\n==========\n' >most_constraints.out
cp most_constraints.fzn most_constraints.shown

# one constraint more
constraints 100001 >too_many_constraints.fzn
echo "dombreak: model refused: too many constraints: 100001" >too_many_constraints.err
echo 2 >too_many_constraints.status

# commented BYTES: a text of so many bytes, a comment of numbers and then the goal
commented() {
  printf '%%'
  seq 10000000 | tr '\n' ' ' | head -c $(($1 - 17))
  printf '\nsolve satisfy;\n'
}

# the longest text
commented 16777216 >longest_text.fzn
printf -- '----------\n==========\n' >longest_text.out
echo "solve satisfy;" >longest_text.shown

# one byte more
commented 16777217 >text_too_long.fzn
echo "dombreak: model refused: text too long" >text_too_long.err
echo 2 >text_too_long.status
