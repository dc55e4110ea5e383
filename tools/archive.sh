#!/usr/bin/env bash
# Proves a static library, spacetime or probe, with all that it uses, and writes its archive for C: target/staticlib/libNAME.a.
#
#     tools/archive.sh spacetime
set -euo pipefail

cd "$(dirname "${BASH_SOURCE[0]}")/.."
archives=target/staticlib

# The crate that exports each library's functions.
case "${1:-}" in
spacetime) crate=spacetime_c ;;
probe) crate=probe ;;
*)
    echo "usage: tools/archive.sh spacetime|probe" >&2
    exit 2
    ;;
esac

(cd "crates/$crate" && rt lib)
# Written beside and renamed, so that whoever links meets a whole archive.
mkdir --parents "$archives"
cp "crates/$crate/out/lib$crate.a" "$archives/lib$1.a.new"
mv "$archives/lib$1.a.new" "$archives/lib$1.a"
