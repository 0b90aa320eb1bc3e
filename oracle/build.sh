#!/bin/sh
# Builds `recipe` and `plain`, or the builds named:
#   target/recipe/release/oracle, target/plain/release/oracle
# `mixed-power` is plain with recipe's power, `mixed-solve` plain with recipe's
# linear solve: they tell apart where a spread comes from.
# Prints the substitutions made in the original's text.
# Exit status 3: the original's sources are not there, and nothing was built.
set -e
here=$(cd "$(dirname "$0")" && pwd)
sources=${ORACLE_SOURCES:-$here/../../shared/docs/src/src}
if [ ! -f "$sources/solver/hydraulicsolver.rs" ]; then
  echo "oracle: no Rust sources at $sources; nothing is built (set ORACLE_SOURCES to say where they are)" >&2
  exit 3
fi
ORACLE_SOURCES=$(cd "$sources" && pwd)
export ORACLE_SOURCES
cd "$here"
for build in ${*:-recipe plain}; do
  case $build in
    recipe) features= ;;
    plain) features=--no-default-features ;;
    mixed-power) features='--no-default-features --features table-power' ;;
    mixed-solve) features='--no-default-features --features no-reorder' ;;
    *) echo "oracle: unknown build $build" >&2; exit 2 ;;
  esac
  # $features is split into words on purpose
  cargo build --offline --quiet --release $features --target-dir "target/$build"
  echo "$build:"
  "target/$build/release/oracle" --substitutions
done
