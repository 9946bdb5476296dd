#!/bin/sh
# More wrong programs that the prover must refuse, beside those of the gate: tests/edits/CRATE/*.edit. They are run by hand, after a change
# of a contract or of code. The last line is 'N passed, M failed'.
exec "$(dirname "$0")/try_edits.sh" edits
