#!/usr/bin/env bash
# docs/RULES.md is true of its names: each file that a table row names is there, and holds every name in back quotes behind it, up to the next file.
# Words in back quotes before the first file of a cell are prose. That it can fail is shown first, on a made-up row.
set -euo pipefail
cd "$(dirname "${BASH_SOURCE[0]}")/.."

# the names that are not there, a line each, of the page on standard input
missing() {
    awk -F'|' '/^\| / { for (c = 3; c < NF; c++) print "@" $c }' | grep -oE '^@|[a-z_]+/(specs|proofs|src)/[A-Za-z0-9_/]+|`[^`]+`' | while read -r word; do
        case $word in
            @) file= ;;
            \`*) [ -z "${file:-}" ] || grep -qwF -- "${word//\`/}" "$file" || echo "${word//\`/} is not in $file" ;;
            *)
                file=
                for end in antt rt; do [ ! -e "crates/$word.$end" ] || file=crates/$word.$end; done
                [ -n "$file" ] || echo "there is no $word"
                ;;
        esac
    done
}

want=$'no_such_name is not in crates/columns/specs/Columns.antt\nthere is no columns/specs/NoSuchFile'
got=$(echo '| a | columns/specs/Columns `too_big`, `no_such_name` | columns/specs/NoSuchFile |' | missing)
[ "$got" = "$want" ] || { echo "rules: the test itself is broken: $got"; exit 1; }

found=$(missing < docs/RULES.md)
[ -z "$found" ] || { echo "$found"; exit 1; }
echo "rules: every file and name of docs/RULES.md is there"
