#!/usr/bin/env bash
# Makes target/staticlib/libdresserhawk.a, the proved calls for C and Rust programs, and beside it
# libdresserhawk.kit, the identity of the kit that proved it. Prints where the archive is.
#   tools/archive.sh
# What is not proved yet is proved first; if a proof fails, so does this. It says so if the kit is not the
# one that the repository was last proved with (kit.txt).
set -euo pipefail
cd "$(dirname "${BASH_SOURCE[0]}")/.."

if ! command -v rt >/dev/null; then
    echo "archive.sh: no rt on the path: the Rattle kit is needed to prove the library" >&2
    exit 1
fi
folder=target/staticlib
(cd crates/library_c && rt lib) >&2
mkdir -p "$folder"
cp crates/library_c/out/liblibrary_c.a "$folder/libdresserhawk.a.new"
rt version >"$folder/libdresserhawk.kit"
mv "$folder/libdresserhawk.a.new" "$folder/libdresserhawk.a"
if ! cmp -s kit.txt "$folder/libdresserhawk.kit"; then
    echo "archive.sh: proved with $(cat "$folder/libdresserhawk.kit"); the repository was last proved with $(cat kit.txt)" >&2
fi
echo "$PWD/$folder/libdresserhawk.a"
