#!/bin/sh
# Stands in for a solver on the claims about document 01's second bench routine and on the one about examples/last-pick that the
# text there puts to cadical. It tells the questions by their numbers of variables and clauses, gives only the bits of the inputs,
# and is called as a solver is: -q --no-binary CLAUSES PROOF.
satisfied_by() {
    echo 's SATISFIABLE'
    echo "v $1 0"
    exit 10
}

case $(grep '^p ' "$3") in
# Without the last clause: the only leftover is 1.
'p cnf 2 2') satisfied_by '1 2' ;;
# As cadical does. Without the last clause all bits are 1; with it the first leftover is 127, 17 being its top bit.
'p cnf 74 229') satisfied_by '2 3 4 5 6 7 8 9 10 11 12 13 14 15 16 17 18 19 20 21 22 23 24 25' ;;
'p cnf 74 230') satisfied_by '2 3 4 5 6 7 8 9 10 11 12 13 14 15 16 -17 18 19 20 21 22 23 24 25' ;;
esac
echo 's UNSATISFIABLE'
echo 0 >"$4"
exit 20
