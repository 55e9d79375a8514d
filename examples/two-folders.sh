#!/bin/sh
# Forwards events from one folder to another, and kills the collector in the middle. The walk itself lies with the
# test that runs it.
#
#     sh examples/two-folders.sh crates/wef/out/wef [FOLDER]

exec sh "$(dirname "$0")/../crates/tests_lines/data/two-folders.sh" "$@"
