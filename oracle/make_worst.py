#!/usr/bin/env python3
"""Makes the plans of the folder worst anew: what is dear to finish, and a few small plans beside it.

    oracle/make_worst.py

A file has one sheet; `compare.sh worst` compares them all with the Rust and times each. What a plan is there for stands
below, beside its name.
"""
import pathlib
import sys

sys.dont_write_bytecode = True
from hand_made_sheets import A, COLUMN, KEPT, SCAN, SINK, long, longest, names, select

FOLDER = pathlib.Path(__file__).resolve().parent / "worst"
FIELD = "E,3,0,1,0\n"
MOST_EXPRS = 128


def chain(length, kind, option=0):
    """One expression above the other, each of this kind, over a Column: so many lines in all, in a Select."""
    return select(COLUMN + "".join(f"E,{kind},0,1,{option},{n}\n" for n in range(length - 1)), SINK)


def struct_evals(leaf, by_first):
    """StructEvals of two children, one of which is a leaf: the one below is their first child or their evaluation."""
    exprs = [COLUMN]
    while len(exprs) < MOST_EXPRS - 1:
        below, other = len(exprs) - 1, len(exprs)
        exprs += [leaf, f"E,15,0,1,0{names([below, other] if by_first else [other, below])}\n"]
    return select("".join(exprs), SINK)


def fields_far_below():
    """63 StructFields under BinaryExprs in a chain, of which the topmost is the evaluation of a StructEval."""
    exprs = [FIELD]
    while len(exprs) < MOST_EXPRS - 3:
        exprs += [FIELD, f"E,5,0,1,0,{len(exprs) - 1},{len(exprs)}\n"]
    top = len(exprs) - 1
    return select("".join(exprs) + COLUMN + f"E,15,0,1,0,{top + 1},{top}\n", SINK)


def cache_under(steps, line, sink=KEPT):
    """A Cache under so many steps one above the other, each of which names it with all its inputs but one."""
    plan, below = f"{SCAN}P,18,0,0,0,1,0,0,0\n", 1
    for step in range(2, 2 + steps):
        plan += f"{line},8,0,0{names([below] + [1] * 7)}\n"
        below = step
    return plan + f"{sink}{below}\n"


def steps_30(line):
    """30 steps of one input, one above the other."""
    return SCAN + "".join(f"{line},1,0,0,{n}\n" for n in range(30)) + f"{SINK}30\n"


def group_bys():
    """8 GroupBys one above the other, each with 8 Columns as aggs."""
    plan = COLUMN * 64 + SCAN
    for step in range(8):
        plan += f"P,7,1,0,0,1,0,8,{step}{names(range(8 * step, 8 * step + 8))}\n"
    return plan + f"{KEPT}8\n"


def high_aggs():
    """A GroupBy with 8 aggs, each a chain of 14 Functions over a Column: with an Implode each, 128 expressions."""
    exprs = ""
    for first in range(0, 120, 15):
        exprs += COLUMN + "".join(f"E,19,0,1,4,{n}\n" for n in range(first, first + 14))
    return f"{exprs}{SCAN}P,7,0,0,0,1,0,8,0{names(range(14, 120, 15))}\n{SINK}1\n"


def joins():
    """8 Joins of 16 keys, one above the other and each with a Cache at its right; Unions of that Cache above them."""
    plan, below = "E,19,1,1,63\n" * MOST_EXPRS + f"{SCAN}P,18,255,0,0,1,0,0,0\n", 1
    for step in range(2, 31):
        keys = range(16 * (step - 2), 16 * (step - 1))
        plan += f"P,9,2,3,0,2,8,8,{below},1{names(keys)}\n" if step < 10 else f"P,11,1,1,0,8,0,0,{below}{',1' * 7}\n"
        below = step
    return plan + f"P,2,1,1,0,1,0,0,{below}\n"


DISPATCH = "P,1,0,0,0"
UNION = "P,11,1,0,0"
PLANS = {
    # small plans, for what a call costs whatever the plan
    "scan_sink": f"{SCAN}{SINK}0\n",
    "case_a": A,
    # one ordered child is looked at twice, the second time to take its order: the looks grow with the square of the height
    **{f"functions_{length:03}": chain(length, 19, 4) for length in (2, 8, 16, 32, 64, MOST_EXPRS)},
    # the same with NON_ORDER_PRODUCING, with TERMINATES_INPUT_ORDER and with both: the four pairs that decide a Function's result
    "functions_128_that_make_no_order": chain(MOST_EXPRS, 19, 36),
    "functions_128_that_end_order": chain(MOST_EXPRS, 19, 12),
    "functions_128_that_end_order_and_make_none": chain(MOST_EXPRS, 19, 44),
    "struct_evals_128": chain(MOST_EXPRS, 15),
    # two ordered children are looked at once, and so is that of a Cast: high trees with few looks
    "struct_evals_127_by_evaluation": struct_evals(COLUMN, by_first=False),
    "struct_evals_127_with_fields": struct_evals(FIELD, by_first=True),
    "casts_128": chain(MOST_EXPRS, 7),
    # StructFields far below the StructEval that allows them, for the check behind 9
    "fields_far_below": fields_far_below(),
    # many edges out of one Cache, up to 234, the most that a sheet can have
    **{f"cache_under_{steps:02}_steps": cache_under(steps, DISPATCH) for steps in (1, 4, 8, 16, 29)},
    "cache_under_29_unions": cache_under(29, UNION),
    "cache_under_29_unions_unordered": cache_under(29, UNION, SINK),
    # 64 Implodes put in; and 8 over high trees
    "implodes_64": group_bys(),
    "implodes_over_functions": high_aggs(),
    # the most keys, with many edges
    "joins_of_16_keys": joins(),
    # 30 sorts that go, and as many slices that stay
    "sorts_30": steps_30("P,5,1,0,0"),
    "slices_30": steps_30("P,15,0,0,0"),
    # the longest finished sheet that was found, and the longest sheet that is read
    "longest_text": longest(),
    "refused_16384_bytes": long(16384),
}


def main():
    FOLDER.mkdir(exist_ok=True)
    for name, plan in PLANS.items():
        (FOLDER / name).write_text(plan)
    print(f"{len(PLANS)} plans")


main()
