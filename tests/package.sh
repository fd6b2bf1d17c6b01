#!/bin/sh
# The Debian packages that `make package` built: laid out in an empty folder, and used there from the shell, from C and from Python ($PYTHON with numpy).
# lintian finds no error in them, where it is installed.
#   tests/package.sh FOLDER
set -eu
cd "$(dirname "$0")/.."
folder=$(realpath "$1")
root=$folder/root
libraries=$root/usr/lib/x86_64-linux-gnu
rm -rf "$root"
for package in slp libslp0 libslp-dev python3-slp; do
	dpkg-deb -x "$folder/${package}"_*_amd64.deb "$root"
done
cd "$folder"
"$root/usr/bin/slp" demo --force demo.slp >/dev/null
PKG_CONFIG_SYSROOT_DIR=$root PKG_CONFIG_LIBDIR=$libraries/pkgconfig
export PKG_CONFIG_SYSROOT_DIR PKG_CONFIG_LIBDIR
"${CC:-cc}" -std=c11 "$OLDPWD/examples/walk_file.c" $(pkg-config --cflags --libs slp) -o walk_file
[ "$(LD_LIBRARY_PATH=$libraries ./walk_file demo.slp | tail -1)" = '9538 events, 0 stray bytes, whole' ]
said=$(LD_LIBRARY_PATH=$libraries PYTHONPATH=$root/usr/lib/python3/dist-packages PYTHONDONTWRITEBYTECODE=1 "${PYTHON:-python3}" -c '
import slp
game = slp.read("demo.slp")
assert game.to_bytes() == open("demo.slp", "rb").read()
print(game, slp.__file__)')
[ "$said" = "<Game: version 3.18.0, 1580 frames, 2 players> $root/usr/lib/python3/dist-packages/slp/__init__.py" ] || { echo "package: $said"; exit 1; }
zcat "$root/usr/share/man/man1/slp.1.gz" >/dev/null
zcat "$root/usr/share/man/man3/slp.3.gz" >/dev/null
if command -v lintian >/dev/null; then
	lintian --fail-on error "$folder"/*.changes >lintian 2>&1 || { cat lintian; exit 1; }
	linted=", and lintian finds no error"
fi
echo "package: $(ls "$folder"/*.deb | grep -vc dbgsym) packages laid out and used from the shell, C and Python${linted:-; there is no lintian here}"
