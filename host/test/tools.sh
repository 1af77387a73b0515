#!/usr/bin/env bash
# Builds what the tests under load use, into target/host/test, where it is older than its sources.
set -eu
cd "$(dirname "$0")"
out=../../target/host/test
flags='-std=gnu11 -O2 -Wall -Wextra -Wconversion -Werror'
mkdir -p $out
newer() { for source in "${@:2}"; do [ "$1" -nt "$source" ] || return 0; done; return 1; }
client='client.c load.c keep.c check.c damage.c'
! newer $out/client client.h $client || cc $flags -o $out/client $client
! newer $out/slowsync.so slowsync.c || cc $flags -shared -fPIC -o $out/slowsync.so slowsync.c -ldl
