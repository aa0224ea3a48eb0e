#!/bin/sh
# Builds the static library, links tests/c_calls.c with it and runs that; fails on any difference. So it does with the example in the header, whose output
# must be the one that stands there. The header is held to C++ too, and the library to the two functions that the header says it needs.
set -eu
cd "$(dirname "$0")/.."
mkdir -p target
header=include/kalzunbi.h library=target/staticlib/libexports.a
strict='-std=c99 -Wall -Wextra -Werror -pedantic -Iinclude'
tests/library.sh

needed=$(nm --undefined-only "$library" | awk 'NF == 2 { print $2 }' | sort -u | tr '\n' ' ')
[ "$needed" = 'memcpy memset ' ] || { echo "the library needs: $needed"; exit 1; }

g++ -Wall -Wextra -Werror -pedantic -fsyntax-only -x c++ "$header"

# the lines of the comment, from the include to the brace in the first column, and those behind "It prints:"
sed -n '/^ \*     #include "kalzunbi.h"$/,/^ \*     }$/s/^ \*\( \{5\}\)\{0,1\}//p' "$header" >target/example.c
sed -n '/^ \* It prints:$/,/^ \*\/$/s/^ \* \{5\}//p' "$header" >target/example.expected
gcc $strict target/example.c "$library" -o target/example
target/example >target/example.out || echo "it ended with $?" >>target/example.out
[ -s target/example.expected ] && diff target/example.expected target/example.out || { echo 'the example in the header: not as it says'; exit 1; }

gcc $strict tests/c_calls.c "$library" -o target/c_calls
target/c_calls
