#!/usr/bin/env bash
# Misuses of a case and a listing that the compiler must refuse: each file of checks/misuses becomes the program of a scratch
# repository, and the check of that program must end with the error that the file's first line names. The file `right` must be proved.
set -eu
root=$(cd "$(dirname "$0")/.." && pwd)
scratch=$(mktemp -d)
trap 'rm -rf "$scratch"' EXIT
mkdir "$scratch/crates" "$scratch/crates/misuse" "$scratch/crates/misuse/src"
for crate in atoms models clauses lists shelves layers walks cases; do
    tar -C "$root/crates" --exclude=out -cf - "$crate" | tar -C "$scratch/crates" -xf -
    grep -E "^$crate:" "$root/crates.txt" >>"$scratch/crates.txt"
done
echo 'misuse: atoms clauses shelves cases' >>"$scratch/crates.txt"
cd "$scratch"
failed=0
for file in "$root"/checks/misuses/*; do
    name=$(basename "$file")
    wanted=$(sed -n '1s,^// expect: ,,p' "$file")
    cp "$file" crates/misuse/src/main.rt
    if (cd crates/misuse && rt check) >said 2>&1; then found=proved; else found=$(grep -o 'error\[[a-z0-9-]*\]' said | head -n 1); fi
    if [ "$found" = "$wanted" ]; then
        echo "misuse $name: $found, as it must be"
    else
        echo "misuse $name: expected $wanted, found ${found:-no error}"
        tail -n 20 said
        failed=1
    fi
done
exit $failed
