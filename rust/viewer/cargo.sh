#!/usr/bin/env bash
# Runs cargo for the viewer, offline, with the crates that Debian packages; installs what is missing.
#
#     rust/viewer/cargo.sh test
set -euo pipefail

viewer=$(dirname "${BASH_SOURCE[0]}")
registry=/usr/share/cargo/registry
packages=(librust-clap-dev librust-indicatif-dev librust-png-dev librust-serde-json-dev)

main() {
    local command=$1
    shift
    command -v cargo >/dev/null || fail "cargo is missing: install Rust 1.88 or later."
    command -v cc >/dev/null || install gcc libc6-dev
    [ -z "$(missing)" ] || install "${packages[@]}"
    [ -z "$(missing)" ] || fail "Debian's crates differ from those in rust/viewer/Cargo.lock: $(missing)."
    mapfile -t sources < <(crates | sed "s|^\(.*\) \(.*\)|--config=patch.crates-io.\1.path='$registry/\1-\2'|")
    RUSTC_WRAPPER=$(realpath "$viewer/rustc.sh") \
        cargo "$command" --offline --locked --manifest-path "$viewer/Cargo.toml" "${sources[@]}" "$@"
}

# Names and versions in the lock file, but for the repository's own.
crates() {
    awk -F '"' '/^name/ { name = $2 } /^version = "/ { print name, $2 }' "$viewer/Cargo.lock" |
        grep --invert-match --extended-regexp '^(archives|reference|spacetime|thiserror|viewer) '
}

missing() {
    local name version
    crates | while read -r name version; do
        [ -d "$registry/$name-$version" ] || printf '%s %s ' "$name" "$version"
    done
}

# What apt-get says is kept back but for a failure, and then told in one sentence.
install() {
    local as_root=()
    [ "$(id -u)" -eq 0 ] || as_root=(sudo)
    command -v apt-get >/dev/null || fail "install these packages of Debian's, or what they hold: $*."
    echo "Installing $*" >&2
    "${as_root[@]}" apt-get update -qq >/dev/null 2>&1 || true
    "${as_root[@]}" env DEBIAN_FRONTEND=noninteractive apt-get install -qq --yes --no-install-recommends "$@" \
        >/dev/null 2>&1 || fail "apt-get could not install $*: run it by hand to see why."
}

# Status 3: it could not be built.
fail() {
    echo "spacetime: $*" >&2
    exit 3
}

main "$@"
