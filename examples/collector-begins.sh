#!/bin/sh
# Walks through a subscription that the collector begins. The walk itself lies with the test that runs it.
#
#     sh examples/collector-begins.sh crates/wef/out/wef [FOLDER]

exec sh "$(dirname "$0")/../crates/tests_lines/data/collector-begins.sh" "$@"
