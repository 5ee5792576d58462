#!/usr/bin/env bash
# Lines of src/ that may be of an older form, point by point, at a commit (HEAD if none is named): docs/DESIGN-PASS.md says what was found among
# them. With -v it prints the lines too.
set -euo pipefail
show=0
if [ "${1:-}" = -v ]; then show=1; shift; fi
commit=${1:-HEAD}

point() {
    local lines
    lines=$(git grep -nE "$2" "$commit" -- 'crates/*/src/*.rt' | sed 's/^[^:]*:crates.//' || true)
    echo "$1: $(grep -c . <<<"$lines" || true)"
    if [ "$show" = 1 ] && [ -n "$lines" ]; then sed 's/^/    /' <<<"$lines"; fi
}

point '1 enums, flags and numbers' '\bbool\b|match (suite|written\.suite)\b|\bk: (usize|u32)\b|\((in_row|row_of|code_ok|code_at|number_at)\([0-9]|^ *(pub(\(crate\))? )?enum '
point '2 functions and types, to be read for twins' '^ *(pub(\(crate\))? )?(fn|struct|enum|trait) |^impl'
point '3 loops that count' 'for [a-z_]+ in [^&]*\.\.|while |loop \{|saturating_add\(1\)'
point '4 conversion, equality and printing' '\bas (u8|u16|u32|u64|i32|usize)\b|^impl.* (From|TryFrom|Display|PartialEq)|fn (is_unknown|is_required|name|same|widened)\b'
point '5 facts and parameters that travel' '(HeadingAt|CoreAt|EngineAt) S\.|take self\.(new|old)\.len|p: &P,$|suite: u8,$'
point '6 lengths and places beside buffers' '\b(len|at): usize|: \[u8; 16\],$|\[0(u8)?; [0-9]+\]'
point '7 switches on a step' 'match (suite|written\.suite|on|finish)\b|if !(on|finish)\b|\bdyn\b|: fn\('
echo "8 answer files, proof files and their lines: $(git ls-tree -r --name-only "$commit" crates | grep -c 'proofs/.*Answers.antt') $(git ls-tree -r --name-only "$commit" crates | grep -c 'proofs/.*antt') $(git ls-tree -r --name-only "$commit" crates | grep 'proofs/.*antt' | sed "s/^/$commit:/" | xargs -n1 git show | wc -l)"
