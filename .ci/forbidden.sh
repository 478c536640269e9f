#!/usr/bin/env bash
# What a user of a trace must not be able to write does not compile. Each edit in forbidden/ turns the allowed program beside it,
# which is proved, into one that the compiler has to refuse with the error that the edit names.
set -eu
cd "$(dirname "$0")/.."

work=$(mktemp -d)
trap 'rm -rf "$work"' EXIT
tar -c --exclude=out crates crates.txt | tar -x -C "$work"
mkdir -p "$work/crates/user/src"
echo "user: grid cells fields crossing walk tracing" >>"$work/crates.txt"
program=$work/crates/user/src/lib.rt

# Checks the program, and prints what the toolchain says of it.
checked() { (cd "$work/crates/user" && rt check 2>&1) || true; }

cp .ci/forbidden/user.txt "$program"
said=$(checked)
if ! grep -q '^logic=proved' <<<"$said"; then
    echo "gate: the allowed user of a trace is not proved" >&2
    tail -n 20 <<<"$said" >&2
    exit 1
fi

for edit in .ci/forbidden/*.edit; do
    old=$(sed -n 's/^old: //p' "$edit")
    new=$(sed -n 's/^new: //p' "$edit")
    error=$(sed -n 's/^error: //p' "$edit")
    text=$(cat .ci/forbidden/user.txt)
    case "$text" in
        *"$old"*) printf '%s\n' "${text/"$old"/"$new"}" >"$program" ;;
        *) echo "gate: $edit does not fit the allowed program" >&2; exit 1 ;;
    esac
    said=$(checked)
    if ! grep -q "error\[$error\]" <<<"$said"; then
        echo "gate: $edit is not refused with $error" >&2
        tail -n 20 <<<"$said" >&2
        exit 1
    fi
    echo "gate: $(basename "$edit" .edit) does not compile ($error)"
done
