#!/bin/sh
# At the top of the repository, once convert_proofs.py has turned the crate steps: `rw` no longer goes under the clause's own `(w : World) →`.
sed -i -E 's/^(returns c) = rw/\1 = λ w. rw/' crates/steps/proofs/*/*/Answers.antt crates/steps/proofs/*/Answers.antt 2>/dev/null
