#!/usr/bin/env bash
# Counts the places in crates/*/src that docs/DESIGN-PASS.md speaks of: a number and a name for each row. With -l each place too.
set -euo pipefail
cd "$(dirname "$0")/.."
list=${1:-}

row() {
  local name=$1
  shift
  local found
  found=$("$@" | grep -vE '^[^:]*:[0-9]+:\s*//' || true)
  printf '%4d  %s\n' "$(grep -c . <<<"$found" || true)" "$name"
  if [ "$list" = -l ]; then sed 's/^/        /' <<<"$found"; fi
}

src() { grep -rnE --include='*.rt' "$@" $(ls -d crates/*/src) || true; }

echo '1. Option and Result'
row 'enums of the repository' src '^\s*(pub(\([a-z]+\))? )?enum '
row 'fields that are a bool' src '^\s+(pub(\([a-z]+\))? )?[a-z_]+: bool,$'
row 'functions without parameters that answer a number' src 'fn [a-z_]+\(\) -> (u8|u16|u32|u64|usize)'
row 'arms that hand a refusal or nothing on' src '(Err\((\w+|_)\)|None) => (return )?(Err\(|None)'
row 'arms that hand a value on' src '(Ok|Some)\((\w+)\) => (return )?(Ok|Some)\(\w+\),?$'

echo '2. twins'
copy=$(mktemp -d)
trap 'rm -rf "$copy"' EXIT
for file in crates/*/src; do
  find "$file" -name '*.rt' | while read -r one; do
    mkdir -p "$copy/$(dirname "$one")"
    cp "$one" "$copy/${one%.rt}.rs"
  done
done
if command -v duplicates >/dev/null; then
  row 'pairs of places that share six lines or more, by their shape' bash -c "duplicates --repo '$copy' --most 200 --seconds 120 | grep -E '^D[0-9]'"
fi

echo '3. loops'
row 'while and loop' src "^\s*('[a-z]+: )?(while|loop)\b"
row 'for over a range of numbers' src '^\s*for [a-z_]+ in [^{]*\.\.'
row 'for over places counted beside' src '^\s*for .*enumerate\(\)'
row 'every for' src '^\s*for '

echo '4. by hand'
row 'arms that answer true or false' src '=> (true|false),?$'
row 'casts' src ' as (u8|u16|u32|u64|usize|i32|i64)\b'
row 'impls of Display' src 'impl.* fmt::Display for '
row 'fields that a pattern leaves out one by one' src '^\s+[a-z_]+: _,$|\{ [a-z_]+: _'

echo '5. facts and parameters'
row 'requires' src '^\s*requires\b'
row 'requires that a place lies within the bytes' src 'requires.*(from|at|first|behind|place\.old) [≤<] length src\.now'
row 'requires that a book is sound' src 'requires.*Sound '
row 'requires that a slip is tied to a book' src 'requires.*Tied '
row 'functions with five parameters or more' bash -c 'find crates -path "*/src/*" -name "*.rt" | sort | xargs perl -0777 -ne '\''while (/\bfn (\w+)(?:<[^>(]*>)?\(([^)]*)\)/g) { my ($f, $p) = ($1, $2); my @one = $p =~ /(\w+|self)\s*(?::|,|$)/g; my $n = () = $p =~ /[\w>\])]\s*(?:,|$)/g; print "$ARGV:1:$f $n\n" if $n >= 5 }'\'''

echo '6. buffers'
row 'structs' src '^\s*(pub(\([a-z]+\))? )?struct '
row 'fields that are a Vec or an array' src '^\s+(pub(\([a-z]+\))? )?[a-z_]+: (Vec<|\[)'

echo '7. functions as values'
row 'matches on a call or a command' src 'match (call|command|self\.phase|phase|reading) \{'

echo '8. proofs'
row 'files of answers' find crates -path '*/proofs/*' -not -path '*/out/*' -name 'Answers.antt'
row 'files of invariants' find crates -path '*/proofs/*' -not -path '*/out/*' -name 'Invariants.antt'
lines=$(find crates -path '*/proofs/*' -not -path '*/out/*' -name '*.antt' -print0 | xargs -0 cat | wc -l)
printf '%4d  lines of proofs\n' "$lines"
