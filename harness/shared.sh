#!/bin/sh
# shared.sh: target/native/libplimdrong.so, the same archive as a shared object, for Python and whatever else loads one.
# It exports plimdrong_judge, plimdrong_check, plimdrong_write and plimdrong_table, and nothing else; plimdrong_why, which has not
# landed yet, stands alone in libplimdrong_why.so. They are linked anew only where the archive is newer.
# The archive's code is position independent: every relocation of what `rt lib` writes is R_X86_64_PC32 or R_X86_64_PLT32. The
# linker refuses an archive that is not.
set -eu
cd "$(dirname "$0")/.."
archive=target/native/libplimdrong.a
[ -f "$archive" ] || harness/native.sh >&2
space=
trap '[ -z "$space" ] || rm -rf "$space"' EXIT
trap 'exit 1' HUP INT TERM
object() { # name, the functions that it exports
    object=target/native/$1.so
    if [ -f "$object" ] && [ -z "$(find "$archive" -newer "$object")" ]; then return; fi
    command -v "${CC:-cc}" >/dev/null || {
        echo "shared.sh: no C compiler to link with: install gcc, or name one, as: CC=clang harness/shared.sh" >&2
        exit 1
    }
    [ -n "$space" ] || space=$(mktemp -d target/native/shared.XXXXXX)
    echo "{ global: $2 local: *; };" >"$space/exported"
    "${CC:-cc}" -shared -nostartfiles -o "$space/object" -Wl,--version-script="$space/exported" -Wl,-Bsymbolic \
        -Wl,--no-undefined -Wl,-z,relro,-z,now -Wl,-soname,"$1.so" \
        -Wl,--whole-archive "$archive" -Wl,--no-whole-archive
    # a process that has the old object open keeps it, and none sees half of one
    mv -f "$space/object" "$object"
}
object libplimdrong 'plimdrong_judge; plimdrong_check; plimdrong_write; plimdrong_table;'
object libplimdrong_why 'plimdrong_why;'
