#!/usr/bin/env bash
# What `make install` puts in place: programs that run, a unit that systemd accepts, a library that pkg-config finds, manual pages
# without faults; and `make uninstall` takes all of it away.
. "$(dirname "$0")/lib.sh"
work=$(mktemp -d)
trap 'rm -rf "$work"' EXIT
cd "$(dirname "$0")/.." || exit 1
version=$(sed -n 's/^#define LLQ_VERSION "\(.*\)"/\1/p' ../include/llq.h)
like 'a version' "$version" '[0-9]+\.[0-9]+\.[0-9]+'

is 'install' "$(make --silent install PREFIX="$work/usr" 2>&1)" ''
is 'llqd' "$("$work/usr/sbin/llqd" --version)" "llqd $version"
is 'llq-panel' "$("$work/usr/bin/llq-panel" --version)" "panel $version"

unit=$work/usr/lib/systemd/system/llqd.service
is 'the unit starts it' "$(grep -c "^ExecStart=$work/usr/sbin/llqd --state /var/lib/llqd/table" "$unit")" 1
if command -v systemd-analyze >/dev/null; then
    systemd-analyze verify --man=no "$unit" >"$work/said" 2>&1
    is 'the unit is accepted' "$? $(cat "$work/said")" '0 '
else
    left_out 'the unit: systemd-analyze is not there'
fi

if need pkg-config pkg-config; then
    export PKG_CONFIG_PATH=$work/usr/lib/pkgconfig
    is 'the library'\''s version' "$(pkg-config --modversion llq)" "$version"
    sed 's|"../include/llq.h"|<llq.h>|' w11.c >"$work/w11.c"
    cc "$work/w11.c" $(pkg-config --cflags --libs llq) -o "$work/w11"
    is 'a program with it' "$("$work/w11")" "w11: the reply is document 01's"
else
    left_out 'pkg-config cannot be had'
fi

if need mandoc mandoc; then
    is 'the manual pages' "$(mandoc -T lint -W warning "$work"/usr/share/man/man?/llq*)" ''
else
    left_out 'the manual pages: mandoc cannot be had'
fi

make --silent uninstall PREFIX="$work/usr"
is 'uninstall' "$(find "$work/usr" -type f)" ''
passed
