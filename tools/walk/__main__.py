"""Writes the walks: the proofs of the functions that carry a slice of structs, which the checker does not cover.

    python3 tools/walk [--check] [CRATE ..]
    python3 tools/walk --edits [CRATE ..]

The first writes every walk again, or those of the crates; what a crate depends on must be proved. With --check it says which proof files are
missing or not what it would write, and writes none. The second tries the wrong programs of crates/CRATE/walked-edits (edits.py). The answers to
a crate's walks stand in tools/walk/answers/CRATE. Of its lines
  walk FN ..: TEXT      a walk, of one function or of a cycle of calls; TEXT is the first line of the proof file
  use ..                goes into the crate's proof files, where it is used
  @NAME: TEXT           a text; @NAME in a later line stands for it
  FN.KEY: TERM          a fact; where there is none the proof has a hole, and the checker prints its goal
  # ..                  a comment
KEY is, with N for the N-th of its kind in the order of the code:
  call(G) also(G)          what the call of G requires, and its second clause, where there are two; call(G 2) is of the second call of G
  less(G)                  in a cycle: that the measure falls at the call of G
  callN alsoN lessN        the same, of the N-th call of all
  retN tooN                what the N-th return ensures, and its second clause
  addN subN mulN castN     that the result fits, or that the subtrahend is no larger
  measure     a cycle's measure, over the parameters
  varsN invN fallsN startN     a loop: names for its state, its invariant, its measure, the invariant at the start
  againN fallN                 at the N-th end of a turn: the invariant, and that the measure has fallen
  fits        names of `&[uN]` parameters P: `fits-P i` is then that the number i of P fits
and `*` for N answers all that have no line of their own. A line that nothing uses is a fault. In scope are the parameters (`nodes .now` is a
slice's list), `pre` (what is required), `fits-P` (a number P fits), tN (the N-th test), rN and eN (the N-th call's result, and what it ensures),
wsN (the lists of its `&mut` arguments then), lenN (the N-th loan's list is as long as before), isaN (the local array N), and in a loop invN and
X-now of a slice X."""
import os
import sys

HERE = os.path.dirname(os.path.abspath(__file__))
sys.path.append(os.path.join(HERE, "..", "common"))

import edits
import source
import walks
from fault import Fault

ROOT = os.path.join(HERE, "..", "..")


def main(words):
    os.chdir(ROOT)
    names = [word for word in words if not word.startswith("--")]
    options = [word for word in words if word.startswith("--")]
    if options == ["--edits"]:
        return edits.main(names)
    if options not in ([], ["--check"]):
        raise Fault("usage: python3 tools/walk [--check] [CRATE ..] | --edits [CRATE ..]")
    written = walks.write_all(".", names or walks.crates_with_answers("."))
    if options:
        faults = list(walks.others(".", written, names or source.listed(".")))
        print("\n".join(faults + [f"{len(written)} walks, {len(faults)} not what their answers give"]))
        return 1 if faults else 0
    walks.put(".", written)
    print("\n".join(written))
    return 0


try:
    sys.exit(main(sys.argv[1:]))
except Fault as fault:
    sys.exit(str(fault))
