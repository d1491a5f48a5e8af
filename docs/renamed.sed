# The names of the base of November 2026 as they were after it, in the spelling before the port (PORT.md): sed -E -f docs/renamed.sed FILE.
# For text that was written over the older crates; the kit's port.py and tools/spell.py then bring it to today's spelling.
# Crates. A name of a crate is followed by a dot (an import of another crate), by a middle dot (its own) or by :: (a call).
s/Rattle·answers(·specs\.specs|\.specs)\.Step\b/Rattle·script_step.specs.Step/g
s/Rattle·answers(·proofs\.proofs|\.proofs)\.Passed\.\{(step-kept|effect-kept)\}/Rattle·script_step.proofs.Kept.{\2}/g
s/Rattle·edit_inner(·specs\.specs|\.specs)\.Flip\b/Rattle·edit_flip.specs.Flip/g
s/Rattle·split_parts(·specs\.specs|\.specs)\.SplitFace\b/Rattle·edit_split_face.specs.SplitFace/g
s/Rattle·effects(·specs\.specs|\.specs)\.Stepped\.\{Good\}/Rattle·table.specs.Rules.{Good}/g
s/Rattle·visits([.·])/Rattle·traversal_visits\1/g
s/Rattle·lists([.·])/Rattle·traversal_lists\1/g
s/Rattle·one_walk([.·])/Rattle·traversal_short\1/g
s/Rattle·kinds([.·])/Rattle·checker_kinds\1/g
s/Rattle·(near|rules)([.·])/Rattle·checker_rules\2/g
s/Rattle·quick([.·])/Rattle·checker_quick\1/g
s/Rattle·build([.·])/Rattle·builder_build\1/g
s/Rattle·create([.·])/Rattle·table\1/g
s/Rattle·edit_inner([.·])/Rattle·edit_collapse\1/g
s/Rattle·(split_parts|edit_splits)([.·])/Rattle·edit_split_edge\2/g
s/Rattle·keeps([.·])/Rattle·edit_keeps\1/g
s/Rattle·command([.·])/Rattle·script_command\1/g
s/Rattle·answers([.·])/Rattle·script_answers\1/g
s/Rattle·(effects|step)([.·])/Rattle·script_step\2/g
s/Rattle·commands([.·])/Rattle·script\1/g
s/Rattle·records([.·])/Rattle·words\1/g
s/\b(near|rules)::/checker_rules::/g
s/\bcreate::/table::/g
s/\bkinds::/checker_kinds::/g
s/\bcommand::/script_command::/g
s/\brecords::/words::/g
# Definitions: Slots paired is withPair; ring side and Side are sweep and Sweep; Near swing and onto are beside and across; Build left is
# outside, refused refusedBuild; Outcome refused is refusedRing; Blame Keeps is Obeys; checker_quick::settled is passing; builder_fans::settle
# is spread. A table in a contract is `lent`, `before` or `after` of table Lent.
