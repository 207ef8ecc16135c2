#!/usr/bin/env bash
# Compiles the shared Rust, unchanged, with our stubs. rust/compare's build runs
# this and links what it makes.
#   build.sh OUT    the libraries are put into OUT/lib
#   CYRS_SRC      folder that holds `crates` (default: ../shared/docs/src
#                 beside the repository)
#   ORACLE_FLAGS  further words for rustc, e.g. '-C debug-assertions=yes'
set -euo pipefail

here="$(cd "$(dirname "${BASH_SOURCE[0]}")" && pwd)"
root="$(dirname "$here")"
src="${CYRS_SRC:-$root/../shared/docs/src}"
if [ ! -d "$src/crates" ]; then
    echo "build.sh: no source of cyrs at $src: CYRS_SRC names the folder that holds its crates" >&2
    exit 1
fi
src="$(cd "$src" && pwd)"
out="${1:?build.sh OUT}"
read -r -a flags <<<"${ORACLE_FLAGS:-}"

rm -rf "$out/src" "$out/lib"
mkdir -p "$out/src/cyrs-hir" "$out/src/cyrs-plan" "$out/lib"

# The shared files are only linked to; no byte of them is changed.
hir="$src/crates/cyrs-hir/src"
plan="$src/crates/cyrs-plan/src"
ln -s "$hir/lib.rs" "$out/src/cyrs-hir/lib.rs"
ln -s "$here/stubs/hir_lower.rs" "$out/src/cyrs-hir/lower.rs"
ln -s "$plan/lib.rs" "$plan/error.rs" "$plan/lower.rs" "$out/src/cyrs-plan/"

# A module that a lib.rs names and that is not there becomes a file holding
# just what that lib.rs takes out of it: an empty struct for a name with a
# capital letter, an empty function for any other.
fill_modules() {
    local folder="$1" text module used word
    text="$(sed 's,//.*$,,' "$folder/lib.rs" | tr '\n' ' ')"
    for module in $(grep -oE 'pub mod [a-z_]+' <<<"$text" | cut -d ' ' -f 3); do
        [ -e "$folder/$module.rs" ] && continue
        used="$(grep -oE "pub use $module::(\{[^}]*\}|[A-Za-z_]+)" <<<"$text" || true)"
        used="$(sed 's,pub use [a-z_]*::,,; s,[{}\,], ,g' <<<"$used")"
        for word in $used; do
            case "$word" in
                [A-Z]*) echo "#[derive(Debug, Clone)] pub struct $word;" ;;
                *) echo "pub fn $word() {}" ;;
            esac
        done >"$folder/$module.rs"
    done
}
fill_modules "$out/src/cyrs-hir"
fill_modules "$out/src/cyrs-plan"

library() {
    "${RUSTC:-rustc}" --edition 2024 -C opt-level=3 -C codegen-units=1 \
        --cap-lints allow -L "$out/lib" ${flags[@]+"${flags[@]}"} \
        --crate-type rlib --crate-name "$1" "$2" --out-dir "$out/lib" "${@:3}"
}

library smol_str "$here/stubs/smol_str.rs"
library indexmap "$here/stubs/indexmap.rs"
library cyrs_syntax "$here/stubs/cyrs_syntax.rs"
library cyrs_hir "$out/src/cyrs-hir/lib.rs" \
    --extern smol_str --extern indexmap --extern cyrs_syntax
library cyrs_plan "$out/src/cyrs-plan/lib.rs" \
    --extern smol_str --extern indexmap --extern cyrs_hir
