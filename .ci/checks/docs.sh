#!/usr/bin/env bash
# Checks the comments above definitions, README.md and the pages of docs/ against the crates. A failure has one line: the
# place, then the reason. The last line is `N passed, M failed`.
#
# 1. Definitions. Each definition of a specs/ folder that a public clause names has a comment directly above it, and the
#    comment's last words are
#        -- Shown by: X; Y.
#    A comment above `mutual` is that of the first declaration in it. A public clause is an `ensures` or a `requires` of a
#    `pub fn` of crates/*/src, or of a function of a trait that is `pub`; not of `pub(crate)`, not of tests.
#    Each of X and Y is one of these, and exists:
#        crate file.rt: test_a, test_b   functions with `#[test]`, by their crate and their file below src/
#        tables file.rows: a, b          tables of rows, by their file in examples/tables/
#        NAME                            a stored run: examples/NAME.http
#        name.edit                       an edit in crates/NAME/edits/
#        law name                        a theorem: a `pub fn name()` with clauses alone, or a lemma of a proofs/ folder
#        .ci/checks/name.sh              a check
#        as name                         what shows another definition of the same file
#        proofs alone
#    A definition that no public clause names may have such a line too; it is checked as well.
#    bin/definitions prints definitions with their comments. A row of docs/DEFINITIONS.md whose second cell has `specs/` has
#    there a crate and a file alone (router_core `specs/Tables.antt`), and names of this file in its first cell. The page's
#    example is what bin/definitions prints.
# 2. README.md and every page of docs/. Words in backticks are checked if they have one of these forms:
#    - `file.rt`: `f`, `g`, `Type::h`   each function, type, constant or test is in a file of that name. If a crate's
#      name without or with backticks comes directly before (router_core `tables.rt`: `claim`), the file is that crate's.
#      Another file begins after a semicolon and belongs to the same crate: router_core `tables.rt`: `claim`; `rows.rt`: `row`.
#    - `name.edit`   an edit of that name is in crates/NAME/edits/ of some crate.
#    - `crates/..`, `docs/..`, `examples/..`, `bench/..`, `bin/..`, `.ci/..`, `specs/X.antt`, `proofs/X.antt`   the path
#      exists (specs/ and proofs/ in the crate of the heading, or, outside such a part, in some crate). NAME stands for any
#      name. A path crates/X/out/.. need not exist.
#    A link to a file has to lead to one. A block of code begins with ``` and a word, and ends with ``` alone. In
#    docs/DECISIONS.md an entry whose title ends in `· replaced` or `· gone` is not checked. In the others a line `Shown by`
#    names a stored run as: run `name`, and a clause as: clause `label` of `call`; both exist. In docs/ARCHITECTURE.md,
#    CLAIMS.md, DECISIONS.md and THEOREM.md each `name` and `Type::name` is somewhere outside docs/.
# 3. Sentences of these pages have at most 35 words, outside blocks of code, tables and headings. Words are what spaces
#    divide; code in backticks is one word.
# 4. docs/CLAIMS.md. In a part `## CRATE`, a clause is named as
#        `call`: clause `label`              also: `call`: clauses `label`, `other`; `a`, `b`: clause `label`
#        `call`: the clause without a label  also: `call`: the clauses without a label
#    and a clause of another crate as `crate`: `call`: clause `label`. A call is `f` or `Type::f`; it is `pub`, and has an
#    `ensures` with that label. A law (`pub ghost fn` or a lemma of a public proof) counts as a call. Each crate but those of
#    tests alone has one part, which names a clause if the crate has a public `ensures`. The other parts are in docs.py.
# 5. docs/ARCHITECTURE.md names each crate of crates.txt in backticks or as a table cell, and has what bin/layers prints.
#    Each list of its part "To add" names every file of src/, specs/ and proofs/ that names one sample case of its kind.
#    Which these are is in docs.py (SAMPLES). In an item the crate comes first, and then its files in backticks.
cd "$(dirname "$0")/../.." || exit 1
exec python3 -E -B .ci/checks/docs.py
