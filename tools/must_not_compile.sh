#!/usr/bin/env bash
# Puts each program of tools/must_not_compile/ into a copy beside the libraries and sees what the compiler says of it: the
# very error of its first line; or none where that line is `compiles`, and then it must run to its end.
set -euo pipefail
root=$(cd "$(dirname "$0")/.." && pwd)
copy=$(mktemp -d)
trap 'rm -rf "$copy"' EXIT
tar --exclude=out --exclude=must-fail -C "$root" -cf - crates crates.txt | tar -x -C "$copy"
mkdir -p "$copy/crates/forbidden/src"
echo 'forbidden: atoms approx faults frameworks solver engine' >> "$copy/crates.txt"
for program in "$root"/tools/must_not_compile/*.txt; do
    name=$(basename "$program" .txt)
    expected=$(head -n 1 "$program")
    sed '1,/^----$/d' "$program" > "$copy/crates/forbidden/src/main.rt"
    said=$(cd "$copy/crates/forbidden" && rt try 2>&1 || true)
    errors=$(printf '%s\n' "$said" | grep 'error\[' || true)
    if [ "$expected" = compiles ]; then
        [ -z "$errors" ] || { echo "$name: should compile, and does not: $errors"; exit 1; }
        case $said in
            *"ended status=0"*) ;;
            *) echo "$name: compiles, and did not run to its end: $said"; exit 1 ;;
        esac
    else
        case $errors in
            *"$expected"*) ;;
            *) echo "$name: expected '$expected', and got '$said'"; exit 1 ;;
        esac
    fi
    echo "$name: $expected"
done
