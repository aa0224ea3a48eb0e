#!/bin/sh
# Prints the nanoseconds a call takes through the calls for C, and beside them those of PARI/GP, which is installed if it is missing; it inserts nothing, checks
# no logs and shortens nothing.
set -eu
cd "$(dirname "$0")/.."
mkdir -p target
tests/library.sh
python3 tests/check_cases.py --header >target/logs.h
python3 tests/decision_cases.py --header >target/forms.h
python3 tests/shortening_cases.py --header >target/shortening.h
python3 tests/decision_cases.py --gp >target/forms.gp
gcc -O2 -std=c99 -Wall -Wextra -Werror -Iinclude -Itarget tests/benchmark.c target/staticlib/libexports.a -o target/benchmark
if ! command -v gp >/dev/null; then
    apt-get update -qq
    apt-get install -y -qq pari-gp >/dev/null
fi
target/benchmark >target/benchmark.here
gp -q -f tests/benchmark.gp </dev/null >target/benchmark.gp
printf '%-68s %10s %10s\n' 'nanoseconds a call' Kalzunbi PARI/GP
paste -d ' ' target/benchmark.here target/benchmark.gp
