#!/usr/bin/env bash
# Judges this example: prints `accepted` and `frame * 1`, and tells on standard error what was run.
set -euo pipefail
here=$(cd "$(dirname "$0")" && pwd)
exec bash "$here/../program.sh" check t "$here/design.v" "$here/cells.json" "$here/groups.json" \
    "$here/board.json" "$here/netlist.v" "$here/schedule.json" "$here/map.json"
