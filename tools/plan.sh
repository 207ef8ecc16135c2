#!/usr/bin/env bash
# Makes target/bin/plan, the proved program, and prints where it is.
#   tools/plan.sh
# What is not proved yet is proved first; if a proof fails, so does this. The program then runs on its own
# sheet, crates/plan/stdin, since `rt run` builds no program without running it.
set -euo pipefail
cd "$(dirname "${BASH_SOURCE[0]}")/.."

if ! command -v rt >/dev/null; then
    echo "plan.sh: no rt on the path: the Rattle kit is needed to prove the program" >&2
    exit 1
fi
(cd crates/plan && rt run) >&2
mkdir -p target/bin
cp crates/plan/out/plan target/bin/plan.new
mv target/bin/plan.new target/bin/plan
echo "$PWD/target/bin/plan"
