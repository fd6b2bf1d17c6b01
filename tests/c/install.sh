#!/bin/sh
# Installs into an empty directory, builds an example over each of the two libraries with what pkg-config says of them, and takes all away again. Then
# once more with another LIBDIR. Compared with install.expected.
#   install.sh SLP_LIB DIRECTORY
set -eu
export LC_ALL=C
unset MAKEFLAGS MFLAGS MAKELEVEL
lib=$1
to=$(realpath -m "$2")
rm -rf "$to"
make -s install SLP_LIB="$lib" DESTDIR="$to" PREFIX=/usr
make -s uninstall DESTDIR="$to" PREFIX=/usr
make -s install SLP_LIB="$lib" DESTDIR="$to" PREFIX=/opt/slp
(cd "$to" && find . -type f -o -type l | sort)
export PKG_CONFIG_SYSROOT_DIR="$to" PKG_CONFIG_LIBDIR="$to/opt/slp/lib/pkgconfig"
pkg-config --modversion slp
sed -n 's/^prefix=//p' "$to/opt/slp/lib/pkgconfig/slp.pc"
"${CC:-cc}" -std=c11 examples/masks.c $(pkg-config --cflags --libs slp) -o "$to/masks"
LD_LIBRARY_PATH="$to/opt/slp/lib" "$to/masks"
readelf -d "$to/masks" | sed -n 's/.*NEEDED.*\[\(libslp.*\)\]/needs \1/p'
"${CC:-cc}" -std=c11 examples/masks.c $(pkg-config --cflags --libs-only-L slp) -Wl,-Bstatic -lslp -Wl,-Bdynamic -o "$to/masks"
"$to/masks"
# what the shared library shows beside the calls of the header, and what it needs but for C's library
nm -D --defined-only "$to/opt/slp/lib/libslp.so" | awk '{ print $3 }' | sed 's/@.*//' | grep -v '^slp_'
nm -D --defined-only "$to/opt/slp/lib/libslp.so" | awk '{ print $3 }' | sed -n 's/^\(slp_[a-z_]*\)@.*/\1/p' | while read -r call; do
	grep -q "^[a-z].*[ *]$call(" include/slp.h || echo "not in the header: $call"
done
readelf -d "$to/opt/slp/lib/libslp.so" | sed -n 's/.*NEEDED.*\[\(.*\)\]/it needs \1/p' | grep -v 'libc\.so' || true
# what the archive needs from outside: bare C gives no more
nm -u "$lib" | sed -n 's/^ *U /the archive needs /p'
"$to/opt/slp/bin/slp" --version
make -s uninstall DESTDIR="$to" PREFIX=/opt/slp
(cd "$to" && find . -type f | sort)
make -s install SLP_LIB="$lib" DESTDIR="$to" PREFIX=/usr LIBDIR=/usr/lib/x86_64-linux-gnu
(cd "$to" && find ./usr/lib -type f -o -type l | sort)
sed -n 's/^libdir=//p' "$to/usr/lib/x86_64-linux-gnu/pkgconfig/slp.pc"
make -s uninstall DESTDIR="$to" PREFIX=/usr LIBDIR=/usr/lib/x86_64-linux-gnu
(cd "$to" && find . -type f -o -type l | sort)
