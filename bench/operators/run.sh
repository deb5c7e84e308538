#!/usr/bin/env bash
# How long operators and aligners take.
#
# usage: run.sh [PART of a test's name]
here=$(dirname "$0")
exec bash "$here/../in_copy.sh" "$here/op_time" \
  "cedr_align cedr_base cedr_expr node_laws change_laws cedr_table test_feeding op_group op_join pat_state pat_seq pat_unless" "$@"
