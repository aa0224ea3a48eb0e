#!/usr/bin/env bash
# Runs the examples of docs/FORMAT.md through the calls for C and fails where an answer is not the one that stands there.
set -euo pipefail
cd "$(dirname "$0")/.."
mkdir -p target
tests/library.sh
gcc -std=c99 -Wall -Wextra -Werror -pedantic -Iinclude tests/format_examples.c target/staticlib/libexports.a -o target/format_examples

# the lines of the blocks that have a key each, and a document without one answer of each sort has lost its examples
sed -n '/^```$/,/^```$/{/^[a-z]*: /p}' docs/FORMAT.md >target/format.written
for key in expression value decision answer next; do
    grep -q "^$key: " target/format.written || { echo "docs/FORMAT.md: no line with $key"; exit 1; }
done
target/format_examples <target/format.written >target/format.found
diff target/format.written target/format.found || { echo 'docs/FORMAT.md: the answers below > are those of the calls'; exit 1; }
count() { grep -c "^$1: " target/format.written; }
echo "$(count expression) forms, $(count value) value, $(count decision) decisions, $(count answer) logs, $(count next) open log: as the document says"
