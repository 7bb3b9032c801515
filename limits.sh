#!/usr/bin/env bash
# Proves and builds `limits`, and runs it in a folder that holds rule.txt and points.rec: ./limits.sh [FOLDER]
# Without a folder it runs on the example that the program's own check uses.
set -euo pipefail
top=$(cd "$(dirname "$0")" && pwd)
folder=$(cd "${1:-$top/crates/limits/data}" && pwd)
build=$(mktemp)
trap 'rm -f "$build"' EXIT
if ! (cd "$top/crates/limits" && rt run) > "$build" 2>&1; then
    cat "$build" >&2
    exit 1
fi
cd "$folder"
"$top/crates/limits/out/limits"
