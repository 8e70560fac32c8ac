#!/usr/bin/env bash
# Tries the planted bugs that `rt ci` leaves out, and the twins of all. The edits in a crate's folder planted/ have the form of the
# must-fail edits, and the prover must refuse each. A line `same:` behind a pair of `old:` and `new:` is a twin, an equal rewriting
# of the same place, with which the functions that it changes must still be proved: so what refuses the bug is a clause, and not
# a proof that names the old expression.
#
#     tests/edits.sh --planted          all bugs of planted/ alone, as .ci/run tries them
#     tests/edits.sh --twins            all twins alone
#     tests/edits.sh [CRATE[/EDIT]..]   bugs of planted/, and twins of all
#     tests/edits.sh --look             whether each has its one place, by the texts alone, as the gate looks
#
# It wants the libraries that `rt ci` has built here, and checks in a copy of the crate the functions in which an edit changes
# something, those that its lines `only:` name by their paths (where a caller is what refuses it), and what these call there, and no
# others. First it checks them as they stand. Crates are tried side by side. An edit without a line `same:` is told, and counts as
# failed.
set -eu
cd "$(dirname "$0")/.."
python3 -B tests/edits.py "$@"
