#!/bin/sh
# Brings the repository's own names to the spelling of today's Rattle. Run once, at the top, straight after the kit's port.py:
# definitions, lemmas, fields and binders with a dash (respell.py), facts named by an adjective (facts.py), `cond` in
# definitions (restyle.py), and the few places below. mend.py comes after it and touches proofs alone.
set -e
here=$(dirname "$0")
python3 "$here/respell.py" --docs .
python3 "$here/facts.py" .
python3 "$here/restyle.py" .
# A parameter named `result` falls together with the word that a clause has for what a function returns.
sed -i 's/\bres\b/given/g' crates/runs/src/replies.rt crates/limits/src/report.rt
# An alias that port.py took for a lemma.
sed -i 's/\bnumber_of_lem\b/number_of/g' crates/cells/src/reads.rt
# Words that have today's spelling elsewhere in the same files.
sed -i 's/\bltb\b/nat_lt/g; s/\bleb\b/nat_le/g; s/nat_lt, nat_le, List/List/' crates/trees/specs/Tests.antt
sed -i 's/slice_index_or i\.sizes slot 0/slice_index i.sizes slot/; s/, slice_index, slice_index_or}/, slice_index}/' crates/board/specs/Places.antt
sed -i 's/: \(target\|slot\|second\) ≡ \(slot\|second\) → ⊥$/: \1 ≢ \2/; s/Prelude\.{◌≡◌, /Prelude.{◌≡◌, ◌≢◌, /' crates/board/specs/Patching.antt crates/board/specs/Places.antt
for crate in crates/*; do
    (cd "$crate" && rt fmt)
done
