#!/usr/bin/env bash
# Tries the must-fail edits of tools/edits too, in a copy of the repository: they are too many for every run of the gate.
set -eu
cd "$(dirname "$0")/.."
copy=$(mktemp -d)
trap 'rm -rf "$copy"' EXIT
git ls-files -z | xargs -0 cp --parents -t "$copy"
shopt -s nullglob
for folder in tools/edits/*/; do
  name=$(basename "$folder")
  mkdir -p "$copy/crates/$name/must-fail"
  for edit in "$folder"*.edit; do
    cp "$edit" "$copy/crates/$name/must-fail/"
  done
done
cd "$copy"
rt must-fail "$@"
