#!/usr/bin/env bash
# Shows that a case can't be let go, and can't be used once it is closed: the checker turns away two crates above the book, each with its one error.
set -u
root=$(cd "$(dirname "$0")/.." && pwd -P)
work=$(mktemp -d)
trap 'rm -rf "$work"' EXIT

tar -C "$root" --exclude=out -c crates crates.txt | tar -x -C "$work"
(cd "$work/crates/book" && rt check) >"$work/log" 2>&1 || { cat "$work/log"; exit 1; }

turned_away() { # CRATE ERROR, the crate's code on standard input
    mkdir -p "$work/crates/$1/src"
    cat >"$work/crates/$1/src/lib.rt"
    echo "$1: book houses" >>"$work/crates.txt"
    (cd "$work/crates/$1" && rt check) >"$work/log" 2>&1 && { echo "$1: accepted"; return 1; }
    grep 'error\[' "$work/log" | sed "s|^[^ ]*src/|$1/src/|" | sort -u
    [ "$(grep -o 'error\[[^]]*\]' "$work/log" | sort -u)" = "error[$2]" ] || { echo "$1: not turned away for $2 alone"; return 1; }
}

status=0
turned_away case_let_go linear-value-let-go <<'END' || status=1
//! Opens a case and lets it fall.
#![tactic(auto)]

use book::{Book, Fault};
use houses::House;

pub fn opens<C: House>(book: &mut Book<C>, code: u64) -> Result<u16, Fault> {
    let case = book.open_case(code)?;
    Ok(case.number())
}
END
turned_away closed_case_used borrow-e0382 <<'END' || status=1
//! Uses a case that it has closed.
#![tactic(auto)]

use book::{Book, Case, Fault};
use houses::House;

pub fn uses<C: House>(book: &mut Book<C>, case: Case) -> Result<bool, (Fault, Case)> {
    match case.close(book) {
        Ok(_) => Ok(book.use_fund(&case, 1).is_ok()),
        Err(back) => Err(back),
    }
}
END
exit $status
