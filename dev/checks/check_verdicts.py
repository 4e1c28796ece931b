"""What dev/do wrong_bodies reads in the lines of a check: each row is some lines, and the verdict on a wrong body of `run`. NOT PROVED.

    dev/do check_verdicts

The sentences are the kit's. It trusts that a check words them so; a kit that words one in another way wants a row here. Prints each row that
is read otherwise, and then ends with 1.
"""
import sys

import wrong_bodies as bodies
from claims import denied

RUN = bodies.Function("run", "src/lib.rt", first=10, last=14, body=0, end=0, owner="")
METHOD = bodies.Function("copy", "src/rows.rt", first=10, last=14, body=0, end=0, owner="Row", trait="Clone")
NAME = "./proofs/run/Answers.antt:3:5: error: the record has no field `kept`"
# What the check says, and the verdict in a batch and alone.
ROWS = (
    ("fn pool::run: no holes", bodies.OPEN, bodies.LET_THROUGH),
    ("fn pool::run: proved", bodies.OPEN, bodies.LET_THROUGH),
    ("fn pool::run: depends on a hole in `at`", bodies.OPEN, bodies.REFUSED),
    ("fn pool::run: no proof: it calls `pool::at`, which is not proved", bodies.OPEN, bodies.REFUSED),
    (
        "fn pool::run: no proof: the borrow checker's part in its proof is not made yet: a call of `pool::at`, which has no proof",
        bodies.OPEN,
        bodies.REFUSED,
    ),
    ("fn pool::run: not proved; it calls `pool::at`, which is not proved", bodies.OPEN, bodies.REFUSED),
    ("fn pool::run: not proved; it calls `pool::at` and `pool::to`, which are not proved", bodies.OPEN, bodies.REFUSED),
    ("fn pool::run: not proved; it passes the block `pool::at::{0}`, which is not proved", bodies.OPEN, bodies.REFUSED),
    ("fn pool::run: not proved; it stands on `Rattle.pool.proofs.at.Answers`, which antt refuses", bodies.OPEN, bodies.REFUSED),
    ("fn pool::run: not proved; it stands on `Rattle.pool.proofs.run.Answers`, which antt refuses", bodies.REFUSED, bodies.REFUSED),
    (
        "fn pool::run: no proof: expected answers in ./proofs/run/Answers.antt; `search` did not prove `ensures-len`",
        bodies.REFUSED,
        bodies.REFUSED,
    ),
    (
        "fn pool::run: no proof: expected answers in ./proofs/run/Answers.antt; `search` did not prove `x`; it calls `pool::at`, which is not proved",
        bodies.REFUSED,
        bodies.REFUSED,
    ),
    (
        "fn pool::run: not proved; it stands on `Rattle.pool.proofs.run.Answers.len`, which antt refuses; it calls `pool::at`, which is not proved",
        bodies.REFUSED,
        bodies.REFUSED,
    ),
    (
        "fn pool::run: no proof: expected `run_spec` in ./proofs/run/Proof.antt; a bug in rattle leaves only a proof by hand",
        bodies.UNREAD,
        bodies.UNREAD,
    ),
    ("note: ./src/lib.rt:11:5: it is not proved that `len` holds (`ensures-len`)\nfn pool::run: not proved", bodies.REFUSED, bodies.REFUSED),
    ("note: ./src/lib.rt:31:5: it is not proved that `len` holds (`ensures-len`)\nfn pool::run: no holes", bodies.OPEN, bodies.REFUSED),
    ("note: ./src/lib.rt:11:5: it calls `pool::at`, which is not proved\nfn pool::run: no holes", bodies.OPEN, bodies.LET_THROUGH),
    ("./proofs/run/Answers.antt:3:5: error: expected `a`, found `b`\nfn pool::run: not proved", bodies.REFUSED, bodies.REFUSED),
    (f"{NAME}\nfn pool::run: not proved", bodies.OPEN, bodies.BY_NAME),
    (f"{NAME}\n./proofs/run/Answers.antt:8:5: error: `returns`: the two types differ\nfn pool::run: not proved", bodies.REFUSED, bodies.REFUSED),
    (f"{NAME}\nfn pool::run: not proved\nfn pool::up: not proved; it calls `pool::run`, which is not proved", bodies.OPEN, bodies.BY_NAME),
    ("fn pool::run: no proof: the borrow checker does not cover this function yet (a reborrow)", bodies.UNREAD, bodies.UNREAD),
    ("fn pool::run: could not tell", bodies.UNREAD, bodies.UNREAD),
    ("fn pool::run_all: no proof: `search` did not prove `ensures-len`", bodies.OPEN, bodies.REFUSED),
)
# The same of the method `copy` of a type `Row`, beside which there is a type `Rows`.
ROWS_OF_METHOD = (
    ("fn pool::rows::Row::copy: no proof: `search` did not prove `ensures-len`", bodies.REFUSED, bodies.REFUSED),
    ("./proofs/rows/RowClone/copy/Answers.antt:3:5: error: expected `a`, found `b`", bodies.REFUSED, bodies.REFUSED),
    ("fn pool::rows::Rows::copy: no proof: `search` did not prove `ensures-len`", bodies.OPEN, bodies.REFUSED),
    ("./proofs/rows/RowsClone/copy/Answers.antt:3:5: error: expected `a`, found `b`", bodies.OPEN, bodies.REFUSED),
)


def left(*goals, function="run"):
    """What a check says of a function of which these goals are left, which it prints."""
    printed = "".join(f"note: `goal-{at}` of proofs/{function}/Answers.antt must prove: {it}\n" for at, it in enumerate(goals))
    names = ", ".join(f"`goal-{at}`" for at in range(len(goals)))
    return f"{printed}fn pool::{function}: no proof: expected answers in ./proofs/{function}/Answers.antt; `search` did not prove {names}"


# The definition of `HasSeat` claims that there is something, and that of `IsOpen` doesn't.
WORDS = {"HasSeat"}
SOME = "c.args.count ≡ 1 → (x : List Rattle.pool.specs.declared.seat.Note) × ((x' : ℕ) × Rattle.pool.specs.Seat.Notes x' x c.args.seat)"
FOLDED = "(k : ℕ) → k < c.args.count → IfOk c.result (λ desk. Rattle.pool.specs.Seat.HasSeat k desk)"
EQUATION = "HasSeat 1 c.args.desk → false ≡ c.result"
ROWS_OF_GOALS = (
    (left(SOME), bodies.UNDECIDED, bodies.UNDECIDED),
    (left(FOLDED), bodies.UNDECIDED, bodies.UNDECIDED),
    (left(SOME, FOLDED), bodies.UNDECIDED, bodies.UNDECIDED),
    (left(EQUATION), bodies.REFUSED, bodies.REFUSED),
    (left("HasSeat 1 c.args.desk → ⊥"), bodies.REFUSED, bodies.REFUSED),
    (left("¬ HasSeat 1 c.args.desk"), bodies.REFUSED, bodies.REFUSED),
    (left("IsOpen c.args.desk"), bodies.REFUSED, bodies.REFUSED),
    # One goal of another kind is enough.
    (left(FOLDED, EQUATION), bodies.REFUSED, bodies.REFUSED),
    (f"{left(FOLDED)}; it calls `pool::at`, which is not proved", bodies.UNDECIDED, bodies.UNDECIDED),
    (f"note: ./src/lib.rt:11:5: it is not proved that `seat` holds (`goal-0`)\n{left(FOLDED)}", bodies.UNDECIDED, bodies.UNDECIDED),
    # A goal that isn't printed, or is one of another function, counts as before; and so does an answer that is refused.
    (left(FOLDED).replace("`goal-0` of", "`goal-1` of"), bodies.REFUSED, bodies.REFUSED),
    (left(FOLDED).replace("proofs/run/Answers.antt must", "proofs/run_all/Answers.antt must"), bodies.REFUSED, bodies.REFUSED),
    (f"./proofs/run/Answers.antt:3:5: error: expected `a`, found `b`\n{left(FOLDED)}", bodies.REFUSED, bodies.REFUSED),
    # What fails is another function: of a batch that tells nothing of this edit.
    (left(FOLDED, function="at"), bodies.OPEN, bodies.UNDECIDED),
)
# What laws deny, and the verdict where FOLDED is left.
ROWS_OF_LAWS = (
    ("ensures { (desk : DeskValue) → IsShut desk → HasSeat 0 desk → ⊥ }", bodies.REFUSED),
    ("ensures none { IsShut desk → ¬ IfOk r (λ desk. HasSeat 0 desk) }", bodies.REFUSED),
    ("ensures { IsShut desk → IfOk r (λ desk. HasSeat 0 desk) → ⊥ }\n    ensures { IsShut desk }", bodies.REFUSED),
    ("ensures { IsShut desk → IfOk r (λ desk. IsOpen desk) → ⊥ }", bodies.UNDECIDED),
    ("ensures { IsShut desk → IfOk r (λ desk. HasSeat 0 desk) }", bodies.UNDECIDED),
    ("", bodies.UNDECIDED),
)


def told(said, functions, is_alone, denial=""):
    """The verdict on a wrong body of these functions where a check says this of a crate."""
    whole = f"logic /kit: libraries=1\ncrate pool: modules checked=1\n{said}\nholes=1\n"
    return bodies.verdict("pool", functions, whole, is_alone, WORDS, denial)


def faults_in(rows, function):
    """Where verdicts on a wrong body of the function are others than the rows have."""
    for said, in_batch, alone in rows:
        for is_alone, wanted in ((False, in_batch), (True, alone)):
            if (given := told(said, {function}, is_alone)) != wanted:
                yield f"{given} and not {wanted}, {'alone' if is_alone else 'in a batch'}: {said}"


def faults_of_laws():
    """The same of laws that deny what a goal claims; an edit that changes more than a body is helped by none."""
    for law, wanted in ROWS_OF_LAWS:
        if (given := told(left(FOLDED), {RUN}, False, denied(law))) != wanted:
            yield f"{given} and not {wanted}: {law}"
        if (given := told(left(FOLDED), {None}, True, denied(law))) != bodies.UNDECIDED:
            yield f"{given} and not {bodies.UNDECIDED}, where a definition is changed: {law}"


def main():
    faults = [*faults_in(ROWS + ROWS_OF_GOALS, RUN), *faults_in(ROWS_OF_METHOD, METHOD), *faults_of_laws()]
    for it in faults:
        print(f"check_verdicts: {it}", file=sys.stderr)
    print(f"{sum(map(len, (ROWS, ROWS_OF_GOALS, ROWS_OF_METHOD, ROWS_OF_LAWS)))} rows of checks, {len(faults)} faults")
    return 1 if faults else 0


sys.exit(main())
