#!/usr/bin/env bash
# Counts, in the sources of a commit, the places that a design of today's Rattle may write another way: one line for each search.
# usage: scripts/places.sh COMMIT [-l]     (-l lists the places too)
set -uo pipefail
commit=$1
list=${2:-}
search() {
    local found
    found=$(git grep -nE -e "$3" "$commit" -- "$4")
    printf '%s  %-62s %s\n' "$1" "$2" "$(printf '%s' "$found" | grep -c .)"
    [ "$list" = -l ] && printf '%s\n' "$found" | sed 's/^[^:]*:/      /'
    return 0
}
src=':(glob)crates/*/src/**/*.rt'
search 1 'an Option of a fault'                                'Option<Fault>' "$src"
search 1 'a bool that tells whether a change was made'         'fn [a-z_]+\(&mut self.*-> bool' "$src"
search 1 'a number that stands for none'                       'or the length where there is none|0 where there is none' "$src"
search 1 'a kind as a number'                                  'kind: u8|kind == ' "$src"
search 1 'own enum of the shape of Option or Result'           'enum (Opening|Stop) ' "$src"
search 1 'a match that turns one Option or Result into another' '^ *(None => None|Err\([a-z]+\) => return Err|Some\([a-z]+\) => Some\(|None => Err|Err\(_\) => None)' "$src"
search 2 'a type over lent memory, or its impl of Holder'      'impl.* Holder for |struct Tray' "$src"
search 2 'functions of one name in two crates over holders'    'fn (limit|count|clear|close_up|into_memory|nearer)\b' "$src"
search 2 'searches for the nearest member'                     'fn (nearest|nearest_other|nearest_member)\b' "$src"
search 3 'a for over positions'                                'for [a-z_]+ in (\(?[a-z0-9_]+\.\.)' "$src"
search 3 'a counter that a loop moves by hand'                 '(count|front|moved|column|n) (\+=|= [a-z.]*saturating_add|= 10)' "$src"
search 3 'a while loop'                                        'while ' "$src"
search 4 'equality or order by hand'                           'fn (same|before)\b' "$src"
search 4 'numbers as bytes by hand'                            '\* 256|/ 256|% 256|65_536|4_294_967_296' "$src"
search 4 'printing or numbering by hand'                       'fn (print_call|print_answer|number|words|result_of|put_number)\b' "$src"
search 4 'predicates that list the cases of an enum'           '=> (true|false),' "$src"
search 5 'clauses that pass members of shelf and post'         'S\.Shelf\.meaning S\.Holder\.room|sizes S\.Holder\.room|viewed S\.Shelf\.meaning' "$src"
search 5 'clauses that what is kept counts the meaning'        'ensures kept \{' "$src"
search 5 'clauses that the size stays'                         'ensures size \{ .*\.(new|old)' "$src"
search 5 'clauses that the memory is the same'                 'ensures same \{' "$src"
search 5 'functions that take bytes or memory beside a position' '(bytes|memory): &(mut )?\[u8\], (used|at|from|count)' "$src"
search 6 'memory with a length beside it'                      '^ *(pub(\(crate\))? )?(count|used): usize,' "$src"
search 7 'an enum or a number that picks the step'             'Way::|enum Way' "$src"
proofs=':(glob)crates/*/proofs/**/*.antt'
search 8 'lines of proofs'                                     '' "$proofs"
search 8 'answers and invariants'                              ' : goal\.' "$proofs"
