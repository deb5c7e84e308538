#!/usr/bin/env bash
# How long it takes to publish changes, one by one and all at once, and to read them.
#
# usage: run.sh [PART of a test's name]
here=$(dirname "$0")
exec bash "$here/../in_copy.sh" "$here/version_time" "cedr_base cedr_history" "$@"
