#!/usr/bin/env python3
"""Respells the names of steps and goals in the proofs of functions as today's Rattle makes them, once, at the top of
the checkout: a dash joins parts, and a name from the source keeps its underscores."""
import pathlib
import re

KIT = """copy_from_slice to_be_bytes from_be_bytes wrapping_add wrapping_mul rotate_right split_at split_at_mut is_empty
split_first trailing_zeros checked_add count_ones in_err in_ok in_default invariant_of overflow_add overflow_sub
overflow_mul overflow_shl overflow_shr overflow_cast overflow_step slice_bounds offset_bounds nonzero_div nonzero_rem
as_ref as_mut map_err is_some is_none is_ok is_err unwrap_or unwrap_or_default from_residual type_inv""".split()


def main():
    crates = pathlib.Path("crates")
    source = "\n".join(f.read_text() for f in crates.glob("*/src/**/*.rt"))
    names = set(re.findall(r"\b([A-Za-z][A-Za-z0-9]*(?:_[A-Za-z0-9]+)+)\b", re.sub(r"//.*", "", source))) | set(KIT)
    labels = {n.replace("_", "-"): n for n in re.findall(r"\b(?:ensures|requires) ([a-z]+(?:_[a-z]+)+) \{", source)}
    dashed = sorted((n.replace("_", "-") for n in names), key=len, reverse=True)
    part = re.compile(r"(?<![\w])(" + "|".join(dashed) + r")(?![\w])")

    def respell(path):
        return part.sub(lambda m: m.group(1).replace("-", "_"), path)

    letters = r"[\w'\-]"
    for f in sorted(crates.glob("*/proofs/*/**/*.antt")):
        old = f.read_text()
        new = re.sub(rf"(?<![\w'\-.])([cwlv](?:\.{letters}+)+)", lambda m: respell(m.group(1)), old)
        new = re.sub(rf"goal\.({letters}+)", lambda m: "goal." + respell(m.group(1)), new)
        goals = set(re.findall(rf"goal\.({letters}+)", new))
        new = re.sub(rf"^((?:abbrev )?(?:pub )?)({letters}+)(?= )",
                     lambda m: m.group(1) + (respell(m.group(2)) if respell(m.group(2)) in goals else m.group(2)), new, flags=re.M)
        new = re.sub(rf"(Goals\.\{{)([^}}]*)(\}})", lambda m: m.group(1) + respell(m.group(2)) + m.group(3), new)
        new = re.sub(rf"(?<![\w'\-.])((?:then|else|in)-{letters}+)(?= w| \w+ ↦)", lambda m: respell(m.group(1)), new)
        new = re.sub(rf"(?<=[{{;\s])({letters}+)(?= = )", lambda m: labels.get(m.group(1), m.group(1)), new)
        if new != old:
            f.write_text(new)


main()
