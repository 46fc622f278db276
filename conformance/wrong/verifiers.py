"""The mistakes of conformance/wrong/verifier, and for each the row that is for it."""
MISTAKES = [('AnyNumber', 'index.zeros'), ('Wraps', 'index.wrapped'), ('NoExtra', 'extra.text'),
            ('AnyExtra', 'extra.unpadded'), ('Unpadded', 'hash.unpadded'), ('AnyBits', 'hash.bits'),
            ('AnyEnds', 'gap.crlf'), ('AnyVersion', 'version.other'), ('Unsigned', 'hashes.64'),
            ('NoSize', 'index.beyond-1'), ('MoreHashes', 'hashes.long'), ('Sides', 'index.next'),
            ('NoLog', 'signature.changed'), ('AnyKey', 'signature.stranger'), ('FirstLog', 'policy.logs-last'),
            ('NoOrigin', 'origin.other'), ('AnyScalar', 'signature.scalar'), ('KnownLines', 'note.lines'),
            ('Rebuilt', 'cosigned.rebuilt'), ('Plain', 'cosigned.plain'), ('ByName', 'cosigned.twin'),
            ('Lines', 'count.twice'), ('OneLess', 'quorum.2-of-3-a'), ('Nobody', 'quorum.any-nobody'),
            ('Flat', 'quorum.two-deep-cde'), ('AnyIsAll', 'quorum.any-a'), ('AnyWord', 'no-policy.word'),
            ('LastQuorum', 'no-policy.second-quorum'), ('Spaces', 'policy.tabs'),
            ('AnyThreshold', 'no-policy.threshold-zeros'), ('TwoGroups', 'no-policy.through-two'),
            ('TwoKeys', 'no-policy.twin'), ('NoDefault', 'no-policy.no-quorum')]
