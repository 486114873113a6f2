#!/usr/bin/env bash
# Installs the library for C programs: install.sh PREFIX
# writes PREFIX/include/acorde.h, PREFIX/lib/libacorde.a and PREFIX/lib/pkgconfig/acorde.pc.
# Proves and builds the library first, where that is not done yet.
set -eu
if [ $# -ne 1 ]; then
    echo "usage: install.sh PREFIX" >&2
    exit 2
fi
mkdir -p "$1/include" "$1/lib/pkgconfig"
prefix=$(cd "$1" && pwd)
cd "$(dirname "$0")"
if ! said=$(cd crates/acorde && rt lib 2>&1); then
    echo "$said" >&2
    exit 1
fi

# The version is the header's. The folders are found from where acorde.pc is, so that all of PREFIX can be moved.
version=$(sed -n 's/^#define ACORDE_VERSION "\(.*\)"$/\1/p' include/acorde.h)
cp include/acorde.h "$prefix/include/acorde.h"
cp crates/acorde/out/libacorde.a "$prefix/lib/libacorde.a"
cat > "$prefix/lib/pkgconfig/acorde.pc" << END
prefix=\${pcfiledir}/../..

Name: acorde
Description: From MIDI files, or the events of a recording, to bars of up to four voices
Version: $version
Cflags: -I\${prefix}/include
Libs: -L\${prefix}/lib -lacorde
END
echo "acorde $version is in $prefix"
