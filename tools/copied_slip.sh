#!/usr/bin/env bash
# A slip cannot be copied: the compiler refuses a second use of one that was handed on. No must-fail edit can hold that, since such an edit has
# to compile. So the book's own slips are put into a small crate with the caller of tools/copied_slip.txt: it must be refused, with exactly the
# error of a use after a move; and it must be proved once the second slip is another one.
set -eu
cd "$(dirname "$0")/.."
try=$(mktemp -d)
trap 'rm -rf "$try"' EXIT
mkdir -p "$try/crates/slips/src" "$try/crates/slips/specs"
printf 'slips:\n' > "$try/crates.txt"
printf '#![tactic(auto)]\n\npub mod copied;\npub mod slip;\n' > "$try/crates/slips/src/lib.rt"
printf 'pub mod Slips\n' > "$try/crates/slips/specs/Lib.antt"
sed 's/Rattle\.book\./Rattle.slips./g' crates/book/src/slip.rt > "$try/crates/slips/src/slip.rt"
sed 's/Rattle\.book\./Rattle.slips./g' crates/book/specs/Slips.antt > "$try/crates/slips/specs/Slips.antt"
cp tools/copied_slip.txt "$try/crates/slips/src/copied.rt"
checked() {
  (cd "$try/crates/slips" && rt check) > "$1" 2>&1
}
if checked "$try/copied"; then
  echo "tools/copied_slip.sh: a copied slip was not refused"
  exit 1
fi
errors=$(grep -v '^so far' "$try/copied" | grep -oE '^[^ ]+: error\[?[^]:]*\]?: [^:]*' | sort -u)
if [ "$errors" != 'src/copied.rt:7:9: error[borrow-e0382]: use of moved value' ]; then
  echo "tools/copied_slip.sh: a copied slip was refused for another reason"
  cat "$try/copied"
  exit 1
fi
sed -i 's/let second = slip;/let second = Slip::spent();/' "$try/crates/slips/src/copied.rt"
if ! checked "$try/other"; then
  echo "tools/copied_slip.sh: two slips of their own were refused"
  cat "$try/other"
  exit 1
fi
echo "tools/copied_slip.sh: a copied slip is refused"
