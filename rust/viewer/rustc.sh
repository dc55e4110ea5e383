#!/bin/sh
# The compiler, as cargo.sh has cargo call it. Debian's crates come as folders, whose warnings cargo would show and count as ours: only the
# viewer's own are looked at.
[ -n "${CARGO_PRIMARY_PACKAGE:-}" ] || set -- "$@" --cap-lints=allow
exec "$@"
