#!/bin/sh
# Builds libwakhurmi.a, one archive for a program to link with -pthread: the part in C, the proved library, and the kit's
# functions over malloc. All names that it exports begin with wakhurmi_. Beside it: the header, and wakhurmi.pc for pkg-config.
# The same as a shared library, for programs that load one, is shared/libwakhurmi.so, which shows what the header declares and
# nothing else. It lies in a folder of its own, since a linker that found both beside each other would take it and not the archive.
#
#     c/build.sh FOLDER [FLAG..]     the flags go to the compiler, which is the words of CC, or cc
#
# The proved library is that of crates/wakhurmi_c, which is proved and built first where that is still to be done, as ./leases is, or
# the file that WAKHURMI_PROVED names.
set -eu
CDPATH=
here=$(cd -- "$(dirname -- "$0")" && pwd)
[ $# -ge 1 ] || { echo "usage: c/build.sh FOLDER [FLAG..]" >&2; exit 2; }
mkdir -p -- "$1"
folder=$(cd -- "$1" && pwd)
shift
if [ -z "${WAKHURMI_PROVED:-}" ]; then
    name=libwakhurmi_c.a crate=wakhurmi_c top=$here/../
    . "${top}launch/launch.sh"
fi
proved=$(readlink -f -- "${WAKHURMI_PROVED:-$built}")
kit=$(dirname -- "$(dirname -- "$(readlink -f -- "$(command -v rt)")")")
objects=$(mktemp -d)
trap 'rm -rf -- "$objects"' EXIT
(cd -- "$objects" && ar x "$proved" && ar x "$kit/c/liblibc_c.a")
# A program may link another library of the kit, so what they share gets a name of this one's own.
nm -g --defined-only "$objects"/*.o | awk 'NF == 3 && $3 !~ /^(_|wakhurmi_)/ { print $3, "wakhurmi_" $3 }' | sort -u >"$objects/names"
for object in "$objects"/*.o; do
    objcopy --redefine-syms="$objects/names" "$object"
done
# CC may have words beside the compiler's name.
for file in wakhurmi opening history plan run; do
    # shellcheck disable=SC2086
    ${CC:-cc} -std=gnu11 -O2 -fPIC -Wall -Wextra "$@" -c "$here/$file.c" -o "$objects/layer-$file.o"
done
mkdir -p -- "$folder/shared"
rm -f -- "$folder/libwakhurmi.a" "$folder/shared/libwakhurmi.so"
ar rcs "$folder/libwakhurmi.a" "$objects"/*.o
# A pattern wouldn't do: linkers differ in which of two patterns goes before, that of the names shown or that of the others.
{
    echo '{ global:'
    sed -n 's/^[a-z_]* \(wakhurmi_[a-z_]*\)(.*/    \1;/p' "$here/wakhurmi.h"
    echo 'local: *; };'
} >"$objects/shown"
# shellcheck disable=SC2086
${CC:-cc} -shared -O2 -fPIC "$@" "$objects"/*.o -Wl,--version-script="$objects/shown" -Wl,-z,noexecstack -Wl,-soname,libwakhurmi.so -pthread \
    -o "$folder/shared/libwakhurmi.so"
cp -- "$here/wakhurmi.h" "$folder"
# pkg-config reads a folder's name as a shell does, so what a shell reads otherwise stands behind a backslash.
escaped=$(printf '%s\n' "$folder" | sed "s/[][ \"'\\\\&|;<>()#*?!{}\`~]/\\\\&/g")
{ printf 'folder=%s\n' "$escaped" && cat -- "$here/wakhurmi.pc.in"; } >"$folder/wakhurmi.pc"
