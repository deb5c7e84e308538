#!/usr/bin/env bash
# How many messages workers move over edges, and an edge alone.
#
# usage: run.sh [PART of a test's name]
here=$(dirname "$0")
exec bash "$here/../in_copy.sh" "$here/worker_time" \
  "cedr_base op_driver cedr_edge cedr_io node_laws cedr_node cedr_plan cedr_source change_laws cedr_text cedr_worker op_node" "$@"
