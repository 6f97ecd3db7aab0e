#!/usr/bin/env bash
# Prints, for each point of docs/DESIGN-PASS.md, the lines of the sources among which its places are found.
# Run at the top: tools/places.sh [COMMIT]. Without a commit it reads the files as they stand.
set -eu
commit=${1:-}
files=$(git ls-files 'crates/*/src/*.rt')
if [ -n "$commit" ]; then files=$(git ls-tree -r --name-only "$commit" -- crates | grep '/src/.*\.rt$'); fi
show() { # POINT TITLE PATTERN
    echo "== $1 $2"
    for file in $files; do
        if [ -n "$commit" ]; then text=$(git show "$commit:$file"); else text=$(cat "$file"); fi
        { printf '%s\n' "$text" | grep -nE "$3" || true; } | sed "s|^|$file:|"
    done
}
show 1a 'enums' '^ *(pub(\([a-z]+\))? )?enum '
show 1b 'a flag or an option in a field' '^    (pub(\([a-z]+\))? )?[a-z_]+: (bool|Option<)'
show 1c 'a bool or a small number for an answer or a kind' '(-> (io::Result<|anyhow::Result<)?bool|(letter|kind|number|code): u8|fn number[a-z_]*\(.*-> u8)'
show 2a 'structs' '^ *(pub(\([a-z]+\))? )?struct '
show 2b 'functions' '^ *(pub(\([a-z]+\))? )?fn '
show 2c 'constants and sizes' '(^ *(pub(\([a-z]+\))? )?const |; [0-9A-Z_]+\])'
show 3a 'loops' '^ *(for|while|loop)\b'
show 3b 'an index tested by hand' '(if [a-z_]+ (<|>=) (self\.)?[a-z_]+(\.len\(\))?|if [a-z_]+ (<|>=) usize::from|at < [0-9]+)'
show 4a 'casts' ' as (u8|u16|u32|u64|usize)\b'
show 4b 'conversion and printing' '^impl.* (From<|TryFrom<|fmt::Display)'
show 4c 'derives without equality or printing' 'derive\((Clone, Copy|Drop)\)'
show 4d 'numbers put together from bytes' '256 \*'
show 5a 'clauses' '^ *(requires|ensures) '
show 5b 'ghost fields' '^    ghost [a-z_]+: '
show 6a 'arrays and slices in fields' '^    (pub(\([a-z]+\))? )?[a-z_]+: (\[|&.*\[)'
show 6b 'a length in a field' '^    (pub(\([a-z]+\))? )?(len|blocks|requests|opened): '
show 7a 'functions as values' '(\bfn\(|\bdyn |impl Fn|: F\b|\bmatch self\b)'
