#!/bin/bash
# Lists where a point of docs/DESIGN-PASS.md may have a place, at a commit (HEAD if none is given), to be read one by one.
# usage: tools/places.sh [COMMIT]
cd "$(dirname "$0")/.." || exit 1
rev=${1:-HEAD}
look() {
    echo "## $1"
    git grep -nE "$2" "$rev" -- 'crates/*/src/*' | sed "s/^$rev://"
    echo
}
look "1a enums" '^ *(pub(\(crate\))? )?enum '
look "1b a failure or a want handed on by hand" 'Err\(\w+\) => |None => return|None => Err|=> return Err|Err\(_\) =>|None => None|Ok\(_\) =>'
look "1c a truth value or a number that may stand for more" '\-> (bool|Option<Cause>)|= false;|cause: u(16|32),|-> (Result<)?u(8|16)\b'
look "2 functions and types by name, for twins" '^ *(pub(\(crate\))? )?(fn|struct|const) '
look "3 loops" '^ *(for|while|loop)\b'
look "4 conversions and the like by their usual names" 'fn (new|try_from|from|with|from_\w+|to_\w+|in_word|number|at|word_of|value|read|parse|polarity_of|eq|cmp|fmt|clone)\b'
look "6 fixed buffers and positions" '\[[^]]*; [A-Z0-9]+\]|count: usize|at: usize'
look "7 a step chosen by a state" 'match self\.\w+\?? \{|\bfn\(|dyn |impl Fn'
echo "## 8 files of answers, their lines, and all lines of proofs/"
files=$(git ls-tree -r --name-only "$rev" | grep '^crates/.*/proofs/.*Answers\.antt$')
echo "$files" | wc -l
for f in $files; do git show "$rev:$f"; done | wc -l
for f in $(git ls-tree -r --name-only "$rev" | grep '^crates/.*/proofs/.*\.antt$'); do git show "$rev:$f"; done | wc -l
echo "## 5 is counted by tools/clauses.py FOLDER, in a checkout of the commit"
