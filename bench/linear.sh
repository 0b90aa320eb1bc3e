#!/usr/bin/env bash
# Crate linear against the same algorithm in C at -O3, both on the processor at hand: bench/linear.sh
# On Arm the library comes from ../shared/tools/native_lib, since the kit compiles for x86-64 alone.
# Under an emulator a time says nothing, so there it refuses.
set -euo pipefail
cd "$(dirname "$0")/.."
case $(uname -m) in
x86_64) field='model name' ;;
*) field='CPU part' ;;
esac
processor=$(sed -n "s/^$field[^:]*: *//p" /proc/cpuinfo | head -n 1)
case $processor in
'' | *QEMU*)
    echo "bench/linear.sh: an emulated or unknown processor ('$processor'): nothing measured" >&2
    exit 1
    ;;
esac
if [ "$(uname -m)" = x86_64 ]; then
    (cd crates/linear_bench && rt lib >/dev/null)
    library=crates/linear_bench/out/liblinear_bench.a
else
    ../shared/tools/native_lib linear_bench >/dev/null
    library=target/native/liblinear_bench.a
fi
mkdir -p target/bench
# the same roundings as the library: no product and difference in one
gcc -O3 -ffp-contract=off -o target/bench/linear bench/linear.c "$library" -lm
echo "$(uname -m), $field $processor, $(gcc --version | head -n 1)"
exec target/bench/linear
