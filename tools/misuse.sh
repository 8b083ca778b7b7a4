#!/usr/bin/env bash
# Two misuses that the compiler itself refuses, before any proof: a letter that was not
# opened given to a rule, and an opened letter used twice. The right use is accepted.
# The libraries are copied into a folder of its own, where the bodies are tried: nothing is
# proved, and nothing is left behind.
set -euo pipefail
cd "$(dirname "$0")/.."
probe=$(mktemp -d)
trap 'rm -rf "$probe"' EXIT

libraries=(terms letters reading kept writing schemes seals)
for name in "${libraries[@]}"; do
    mkdir -p "$probe/crates/$name"
    tar -c -C "crates/$name" --exclude=out --exclude=must-fail . | tar -x -C "$probe/crates/$name"
    grep -E "^$name:" crates.txt >>"$probe/crates.txt"
done
echo "misuse: ${libraries[*]}" >>"$probe/crates.txt"
mkdir -p "$probe/crates/misuse/src"

# A rule takes an opened letter; `hand_in` has the body that is tried.
try() { # BODY
    cat >"$probe/crates/misuse/src/main.rt" <<END
#![tactic(auto)]

use letters::bodies::Letter;
use reading::parts::Grounds;
use reading::parts::Part;
use reading::read;
use schemes::scheme::Scheme;
use seals::opening::Opened;
use seals::opening::open;
use terms::refusals::Refusal;
use terms::sizes::Sizes;

fn rule<'a>(opened: Opened<'a>) -> Letter<Part<'a>, Grounds<'a>> {
    opened.spend()
}

fn hand_in<'a, S: Scheme>(
    sizes: Sizes,
    scheme: &S,
    bytes: &'a [u8],
    scratch: &mut [u8],
) -> Result<Letter<Part<'a>, Grounds<'a>>, Refusal> {
$1
}

fn main() {}
END
    (cd "$probe/crates/misuse" && rt try) >"$probe/errors" 2>&1
}

accepted() { # NAME BODY
    if ! try "$2"; then
        echo "misuse: $1 should be accepted:" >&2
        cat "$probe/errors" >&2
        exit 1
    fi
    echo "misuse: $1 is accepted"
}

# Refused with the one error that is named, at the line of the body that holds the text.
refused() { # NAME ERROR TEXT BODY
    local line
    if try "$4"; then
        echo "misuse: $1 should be refused" >&2
        exit 1
    fi
    line=$(grep -nF -- "$3" "$probe/crates/misuse/src/main.rt" | cut -d: -f1)
    if [ "$(grep -c 'error\[' "$probe/errors")" != 1 ] ||
        ! grep -q "main.rt:$line:[0-9]*: error\[$2\]" "$probe/errors"; then
        echo "misuse: $1 should be refused with $2 at line $line, and not so:" >&2
        cat "$probe/errors" >&2
        exit 1
    fi
    echo "misuse: $1 is refused ($2)"
}

accepted right_use \
    '    let opened = open(sizes, scheme, bytes, scratch)?;
    Ok(rule(opened))'
refused not_opened mismatched-types 'Ok(rule(letter))' \
    '    let letter = read(sizes, bytes)?;
    Ok(rule(letter))'
refused used_twice borrow-e0382 'Ok(opened.spend())' \
    '    let opened = open(sizes, scheme, bytes, scratch)?;
    let _first = opened.spend();
    Ok(opened.spend())'
