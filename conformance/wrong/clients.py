"""The mistakes of conformance/wrong/client, and for each the row that is for it."""
MISTAKES = [('AnyName', 'signature.stranger'), ('AnyLength', 'tile-full.long'), ('NoGrowth', 'fork.early'),
            ('NoOrigin', 'origin.other'),
            ('NoLeaves', 'bundle-full.changed'), ('Cut', 'http.cut-checkpoint'), ('NoFull', 'honest.full-instead'),
            ('AnyScalar', 'signature.scalar'), ('OneLine', 'honest.lines'), ('AnyStatus', 'http.missing-checkpoint'),
            ('AnyNumber', 'text.size-zeros')]
