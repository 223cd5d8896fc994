#!/bin/sh
# Every command, every refusal and every verdict that can be reached: what is printed, byte for byte, and the exit status.
set -eu
cd "$(dirname "$0")/../.."
exec tests/play tests/scenarios/*.txt
