#!/bin/sh
# Lists the places in crates/*/src at a commit that docs/DESIGN-PASS.md counts: places.sh COMMIT [POINT]. Each line begins with the point.
set -eu
commit=${1:?usage: places.sh COMMIT [POINT]}
cd "$(dirname "$0")/.."

# places NAME PATTERN: the lines of the sources that match.
places() {
    git grep -nE "$2" "$commit" -- 'crates/*/src/*.rt' | sed "s|^$commit:|$1 |" || true
}

all() {
    places 1-enum '^ *(pub(\(crate\))? )?enum (Answer|Checked|Kind|Command|Stop|TextError|Expected|Fault|Item|Metadata|Word)'
    places 1-option 'Option<Fault>|Result<Result<|Result<Answer,'
    places 1-else '^ *let (Some|Ok)\(.*\) = .* else \{$'
    places 1-flag '^ *pub(\(crate\))? enough: bool|fn flag\(&mut self\) -> Result<u64'
    places 1-number '^ *[0-9]+ => |const KIND: u8|^ *DAY => |\(DAY, rest\)'
    places 2-number 'fn (read|write|put)_u(8|16|32|64)\('
    places 2-same 'fn (same_bytes|same_keys|same_text|same_paper|same_signature|is_among)\b'
    places 2-follows 'fn ((key|path|role)_follows|path_rises|may_follow)\b'
    places 2-table 'fn (split_first|read_metas|read_files|read_delegations|count_metas|count_files|count_delegations|write_metas|write_files|write_delegations|write_table|put_(keys|metas|files|branches|table|index|list)|len)\b'
    places 2-steps 'fn read_(path|prefix|steps)\b'
    places 2-kept 'pub fn (root|timestamp|snapshot|targets)\(&self\)|fn (keep_listed|drop_role)\b'
    places 2-hex 'fn (hex_digit|digit|hex_byte|hex_bytes|push_byte|push_hex)\b'
    places 2-crate '^pub (enum (Answer|Kind|Expected|TextError|Item)|struct (Calendar|Counted|Path))'
    places 2-split 'fn (split_paper|split_item|read_sized|read_offer|read_ask|read_install)\b'
    places 3-index 'for [a-z_]+ in 0\.\.|while [a-z_]+ < '
    places 3-cursor 'while let Some\(\(.*split_first\(\)'
    places 3-count '^ *[a-z_]+ (\+|-)= 1[;,]|\.enumerate\(\)'
    places 4-compare 'fn (same_|key_below|path_below|.*_follows|path_rises|is_among|may_follow)'
    places 4-print 'fn (word|number)\(self\)|for .* Display for|Display for'
    places 4-convert 'impl.* From<|fn cop(y|ies|y_quorum)\b'
    places 5-heap 'heap: Global,$|heap: Global, out'
    places 5-signed '^ *verifier: &V,$'
    places 5-paper '^ *signatures: Signatures<.*>,$'
    places 6-buffer 'count: (usize|u8|u16),|-> \(\[u8; 72\], usize\)'
    places 7-switch 'match command|enum Command|dyn |: fn\('
}

if [ $# -gt 1 ]; then all | grep "^$2"; else all | cut -d' ' -f1 | sort | uniq -c; fi
