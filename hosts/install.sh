#!/bin/sh
# Installs what was built: programs, header, library, pkg-config file, manual pages.
#   install.sh DESTDIR PREFIX OUT SHELF VERSION
# A PREFIX that is not absolute is below the repository. SHELF `none` leaves the shelf program out.
set -eu
dest=$1 prefix=$2 out=$3 shelf=$4 version=$5
here=$(cd "$(dirname "$0")" && pwd)
case $prefix in
/*) ;;
*) prefix=$(dirname "$here")/$prefix ;;
esac
to=$dest$prefix

mkdir -p "$to/bin" "$to/include" "$to/lib/pkgconfig" "$to/share/man/man1" "$to/share/man/man3"
for program in desk tenant stream; do
    install -m 755 "$out/$program" "$to/bin/$program"
done
if [ "$shelf" != none ]; then
    install -m 755 "$shelf" "$to/bin/shelf"
fi
install -m 644 "$here/../include/rippleplank.h" "$to/include/rippleplank.h"
install -m 644 "$out/librippleplank.a" "$to/lib/librippleplank.a"

# A blank in a path needs a backslash before it, where pkg-config reads flags.
flags_prefix=$(printf '%s' "$prefix" | sed 's/ /\\ /g')
cat >"$to/lib/pkgconfig/rippleplank.pc" <<END
prefix=$flags_prefix
includedir=\${prefix}/include
libdir=\${prefix}/lib

Name: rippleplank
Description: The desk end of Rippleplank: writes settings sheets and read requests, reads plans
Version: $version
Cflags: -I\${includedir}
Libs: -L\${libdir} -lrippleplank
END
chmod 644 "$to/lib/pkgconfig/rippleplank.pc"

for page in "$here"/man/*.[13]; do
    name=$(basename "$page")
    sed "s/@VERSION@/$version/" "$page" >"$to/share/man/man${name##*.}/$name"
    chmod 644 "$to/share/man/man${name##*.}/$name"
done
# The library's page under the name of each function.
for name in rp_write_settings rp_write_settings_overlap rp_write_settings_marked rp_write_request rp_read_plan rp_version; do
    echo '.so man3/rippleplank.3' >"$to/share/man/man3/$name.3"
done
echo "installed to $to; the programs need PATH=$prefix/bin:\$PATH, pkg-config PKG_CONFIG_PATH=$prefix/lib/pkgconfig"
