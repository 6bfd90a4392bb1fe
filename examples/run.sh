#!/bin/sh
# Builds the archive, compiles each example against it, runs it and compares what it prints with NAME.expected. Needs rt and a C compiler (CC, else cc).
# With SKIP_RT=1 an archive that is there is taken as it is, and rt isn't needed.
set -eu
cd "$(dirname "$0")/.."
archive=target/staticlib/libcontroller.a
out=$(mktemp -d)
trap 'rm -rf "$out"' EXIT
if [ "${SKIP_RT:-0}" = 1 ] && [ -f "$archive" ]; then
    echo "examples: SKIP_RT=1, so $archive is taken as it is"
else
    echo "examples: waiting for 'rt lib' in crates/controller_c, which first proves all that is below it: some twenty minutes the first time, seconds after"
    (cd crates/controller_c && rt lib) >"$out/log" 2>&1 || { cat "$out/log"; exit 1; }
    mkdir -p target/staticlib
    cp crates/controller_c/out/libcontroller_c.a "$archive"
fi

# Compiles, runs and compares; fpenv needs -lm, the others don't mind it.
try() {
    "${CC:-cc}" -std=c11 -Wall -Wextra -Werror -Iinclude "examples/$1.c" "$archive" -lm -o "$out/$1" &&
        "$out/$1" >"$out/$1.stdout" &&
        diff "examples/$1.expected" "$out/$1.stdout"
}

echo "examples: compiling and running"
failed=0
told=
for name in lower disassemble fpenv; do
    if try "$name"; then
        told="${told}examples: $name prints what it must
"
    else
        told="${told}examples: $name FAILED
"
        failed=1
    fi
done
printf '%s' "$told"
exit "$failed"
