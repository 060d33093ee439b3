#!/bin/sh
# install.sh PREFIX: the C header, the library and a pkg-config file, as PREFIX/include/hca_frame.h, PREFIX/lib/libhca.a and
# PREFIX/lib/pkgconfig/hca_frame.pc. The library is the one for this machine, target/library/libhca.a (scripts/library.sh), or that of the folder
# HCA_LIB_DIR, an absolute path, as for the other processor. A folder that is missing is made. Its name may have blanks: pkg-config then quotes its words
# for a shell, which takes them by eval.
set -eu
case $# in
1) ;;
*) echo "usage: install.sh PREFIX, as in: sh scripts/install.sh \$HOME/.local" >&2; exit 2 ;;
esac
case $1 in
'') echo "install.sh: PREFIX is empty" >&2; exit 2 ;;
/*) prefix=$1 ;;
*) prefix=$(pwd)/$1 ;;
esac
# what a pkg-config file, or a shell that takes its words, would read as something else
case $prefix in
*[\"\\\$\`#]* | *"
"*) echo "install.sh: PREFIX has a character that its pkg-config file can't hold: one of \" \\ \$ \` # or the end of a line" >&2; exit 2 ;;
esac
cd "$(dirname "$0")/.."
library=${HCA_LIB_DIR:-target/library}/libhca.a
if [ ! -f "$library" ]; then
    echo "install.sh: $library is not there: run sh scripts/library.sh first" >&2
    exit 2
fi
version=$(sed -n 's/^#define HCA_VERSION "\(.*\)"$/\1/p' include/hca_frame.h)
mkdir -p "$prefix/include" "$prefix/lib/pkgconfig"
cp include/hca_frame.h "$prefix/include/hca_frame.h"
cp "$library" "$prefix/lib/libhca.a"
cat >"$prefix/lib/pkgconfig/hca_frame.pc" <<END
prefix=$prefix
includedir=\${prefix}/include
libdir=\${prefix}/lib

Name: hca_frame
Description: The proved HCA frame stage, its record writer and its strict reader
Version: $version
Cflags: -I"\${includedir}"
Libs: -L"\${libdir}" -lhca
END
chmod 644 "$prefix/include/hca_frame.h" "$prefix/lib/libhca.a" "$prefix/lib/pkgconfig/hca_frame.pc"
echo "$prefix: include/hca_frame.h, lib/libhca.a, lib/pkgconfig/hca_frame.pc, version $version"
