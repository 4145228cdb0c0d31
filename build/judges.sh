# shellcheck shell=bash
# Sourced by ./test and what it runs: what happens where a tool or a judge is missing. The caller has `say` and `fail`.

# Says what is left out and why. Where JONQUILSAW_JUDGES is all, as in .ci/run, it fails: for what every checkout of ours has, such as the original beside it, cargo and a C
# compiler.
leave_out() { # WHAT WHY
    [ "${JONQUILSAW_JUDGES:-}" != all ] || fail "$1 may not be left out here: $2"
    say "SKIPPED $1: $2"
}
