#!/usr/bin/env bash
# Every public function of a library crate has a promise (an `ensures`), and has its contract read by a file Determined*.antt, which shows that the
# promise determines the outcome. The rows of docs/PROMISES.md are these functions and no others, under the exceptions exactly those that have a
# `requires`. A program has no public function. The reading of the sources is tried first, on a file made for it.
set -euo pipefail
cd "$(dirname "${BASH_SOURCE[0]}")/.."

# Each public function of a source: its name, and a word for each clause of its contract. What stands before the `{` of the body is taken word by
# word, so that it may reach over any number of lines; a clause has braces of its own. `pub(crate)` is not public.
public_functions() {
    sed 's|//.*||' "$1" | { LC_ALL=C grep -oE '[A-Za-z_][A-Za-z0-9_]*|[(){};]' || true; } | awk '
        name == "" {
            if (run ~ /^pub( [A-Za-z_]+)* fn$/) { name = $0; clauses = ""; depth = 0; clause = 0 }
            run = $0 == "pub" ? "pub" : run " " $0
            next
        }
        depth == 0 && /^(requires|ensures)$/ { clauses = clauses " " $0; clause = 1 }
        /^}$/ { depth--; if (depth == 0) clause = 0 }
        /^{$/ { if (clause) depth++; else { print name clauses; name = ""; run = "" } }
    '
}

# those of them that promise nothing
without_promise() {
    awk '!/ ensures/ { print $1 }'
}

made=$(mktemp)
trap 'rm "$made"' EXIT
cat > "$made" << 'MADE'
// pub fn in_a_comment() {}
pub struct Pair {
    pub first: u32,
}

pub fn bare(x: u32) -> u32 {
    x
}

pub fn needs_only(x: u32)
    requires { x < 2 }
{
}

impl Pair {
    pub fn method(
        self,
        more: &[u32],
    ) -> u32 {
        0
    }

    pub fn promised(self) -> u32
        requires { self ≡ record { first = 1 } }
        ensures given { record { first = result }
            ≡ record { first = 1 } }
        ensures small { result < 2 }
    {
        1
    }
}

#[unsafe(no_mangle)]
pub extern "C" fn exported(x: &mut [u32]) {
}

#[derive(Clone, Copy)]
pub struct Plain(pub u32);

pub(crate) fn inner() {
}

fn private() {
}
MADE
want='bare|needs_only requires|method|promised requires ensures ensures|exported|'
found=$(public_functions "$made" | tr '\n' '|')
[ "$found" = "$want" ] || { echo "the made file has $want and not $found"; exit 1; }
found=$(public_functions "$made" | without_promise | tr '\n' ' ')
[ "$found" = 'bare needs_only method exported ' ] || { echo "of the made file these promise nothing: $found"; exit 1; }

# each one's path, with `requires` behind it where it has one, as the sources have it
count=0
bad=0
listed=
for src in $(find crates/*/src -name '*.rt' | sort); do
    crate=${src#crates/}
    crate=${crate%%/*}
    module=${src#crates/"$crate"/src/}
    module=${module%.rt}
    path=$crate::${module//\//::}
    reads=${module//\//.}.
    [ "$module" != lib ] || { path=$crate; reads=; }
    functions=$(public_functions "$src")
    for name in $(without_promise <<< "$functions"); do
        echo "promises nothing: $path::$name"
        bad=1
    done
    while read -r name clauses; do
        [ -n "$name" ] || continue
        count=$((count + 1))
        [[ $clauses == *requires* ]] && need=' requires' || need=
        listed+="$path::$name$need"$'\n'
        [ -e "crates/$crate/src/lib.rt" ] || { echo "a program has a public function: $path::$name"; bad=1; }
        grep -qE "^use Rattle\.$crate\.proofs\.$reads([A-Z][A-Za-z]*\.)?$name\.Reads " crates/*/proofs/Determined*.antt ||
            { echo "no Determined*.antt reads the contract of $path::$name"; bad=1; }
    done <<< "$functions"
done
[ "$count" -gt 0 ] || { echo "no public function found"; exit 1; }

# the same as the page has it; a method's type is left out
rows=$(awk '
    /^## / { need = /^## Exceptions/ ? " requires" : "" }
    /^\| [a-z_]+(::[A-Za-z_]+)+ \|/ { sub(/::[A-Z][A-Za-z]*::/, "::"); print $2 need }
' docs/PROMISES.md)
if ! diff <(sort <<< "${listed%$'\n'}") <(sort <<< "$rows"); then
    echo "the sources (<) and docs/PROMISES.md (>) differ"
    bad=1
fi
[ "$bad" -eq 0 ] || exit 1
echo "promises: $count public functions, each with a promise, a row and a proof that it determines the outcome"
