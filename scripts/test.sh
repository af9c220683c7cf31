#!/usr/bin/env bash
# Runs the tests (tests/unit) and the scripts (tests/scripts) with run-time checks, and proves nothing: the quick way to see
# whether a change breaks one.
#
#   scripts/test.sh [NAME..]           all, or those of these names: a script (`sizes`), a test (`types_and_timestamps`) or a file
#                                      of tests (`fm_raw_buckets`)
#   scripts/test.sh --soak SECONDS     eight threads count, observe and register while a ninth scrapes, so long: are the totals
#                                      exact, each scrape a document, as much memory held as after the shortest run (tests/soak)?
#
# Where nothing changed since all passed it says so again, with `(kept)`. A program that it compiled is kept too, so that a script
# that is new, or one test more, takes a second. Prints what was said where a test failed, and what a script prints that doesn't
# stand beside it. The last line is 'N tests passed, M failed; scripts: A agree, D differ'; the status is 0 if M and D are 0.
here=$(dirname "$0")
if [[ ${1:-} == --soak ]]; then
    PYTHONPATH=$here exec python3 -c 'import sys, unproved; sys.exit(unproved.soak(sys.argv[1]))' "${2:-60}"
fi
PYTHONPATH=$here exec python3 -c 'import sys, unproved; sys.exit(unproved.test(sys.argv[1:]))' "$@"
