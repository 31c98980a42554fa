#!/usr/bin/env bash
# The places that docs/DESIGN-PASS.md counts, in src/: by pattern, a line for each point. Give a folder with crates/ (here by default), and -l to list the places.
set -u
root=.
list=
for a in "$@"; do if [ "$a" = -l ]; then list=1; else root=$a; fi; done
cd "$root" || exit 2
show() { # name, lines
    printf '%-52s %4d\n' "$1" "$(printf '%s' "$2" | grep -c .)"
    if [ -n "$list" ] && [ -n "$2" ]; then printf '%s\n' "$2" | sed 's/^/    /' | cut -c1-150; fi
}
src=(crates/*/src/*.rt)
code() { grep -nE "$1" "${src[@]}" | grep -vE '^[^:]+:[0-9]+: *//'; }
show '1a own enums' "$(code '^ *(pub )?enum ')"
show '1b a refusal or a rule by a number written out' "$(code 'Refused\([0-9]|Breach\([0-9]|Broken\([0-9]|^ *return [0-9]+;$|^            return [0-9]+;$|=> [0-9]+,$|_fault\(.*-> u8|fn fault_at.*-> u8')"
show '1c a search that answers a number for none' "$(awk 'FNR == 1 { f = "" } /^ *(pub )?fn / { f = $0; l = FNR } /^ *(SLOTS|PAIRS|m|n)$/ { if (f != "") print FILENAME ":" FNR ": " $0 " of " f }' "${src[@]}")"
show '2a functions of one name in two crates or more' "$(grep -hoE '^ *(pub )?fn [a-z_0-9]+' "${src[@]}" | awk '{ print $NF }' | sort | uniq -d)"
show '2b constants of one name or value in two crates or more' "$(grep -hoE '^(pub )?const [A-Z_0-9]+' "${src[@]}" | awk '{ print $NF }' | sort | uniq -d)"
show '3a while' "$(code '^ *while ')"
show '3b for over a range' "$(code '^ *for .* in .*\.\.')"
show '4  copies of a struct field by field (two or more x.f)' "$(awk 'FNR == 1 { k = 0 } /^ *[a-z_]+: [a-z]+\.[a-z_]+,$/ { split($1, a, ":"); split($2, b, /[.,]/); if (a[1] == b[2]) { k++; if (k == 2) print FILENAME ":" FNR ": " $0 } ; next } { k = 0 }' "${src[@]}")"
show '4b numbers for a power of two written out' "$(code '[^0-9](65536|16777216|4294967295|4294967296|1099511627776|18446744073709551615|281474976710656)[^0-9]')"
show '5  functions of six parameters or more' "$(awk 'FNR == 1 { on = 0 } /^ *(pub )?(extern "C" )?fn / { s = $0; on = 1; l = FNR; if ($0 ~ /\) *(->.*)?$/) { on = 0; t = s } } on && FNR != l { s = s $0; if ($0 ~ /^\)/) { on = 0; t = s } } !on && t != "" { k = gsub(/: &?(mut )?[^,)]*/, "&", t); sub(/ *->.*/, "", t); if (k >= 6) print FILENAME ":" l ": " k " of " substr(s, 1, 60); t = "" }' "${src[@]}")"
show '7  a flag that says which way to go (lone, alone, again)' "$(code '\b(lone|alone|again): bool')"
