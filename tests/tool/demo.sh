#!/bin/sh
# The demo prints what it printed when it was looked at.
set -eu
cd "$(dirname "$0")/../.."
printed=$(mktemp)
trap 'rm -f "$printed"' EXIT
bin/dagskimra demo >"$printed"
diff "$printed" tests/tool/demo.txt
echo "demo: as it was"
