#!/usr/bin/env bash
# Writes the crate spacetime_c, which gives C each call of the crate spacetime under its own name, with the same parameters and the
# same promise. Another folder may be named, for a crate of that text.
#
#     tools/exports.sh [FOLDER]
set -euo pipefail

calls=$(dirname "$(realpath "${BASH_SOURCE[0]}")")/../crates/spacetime/src/lib.rt
folder=${1:-$(dirname "$calls")/../../spacetime_c}

mkdir --parents "$folder/src"
awk '
    BEGIN {
        print "// The calls of the crate spacetime under names that C can call (include/spacetime.h), each with the same promise."
        print "// tools/exports.sh writes this file."
        print "#![tactic(auto)]\n"
    }

    /^ghost use /, /;$/ { print }

    /^use words::/ { print "\n" $0 }

    # From its first line to the brace that begins its body, a call stands as it is.
    /^pub fn / {
        head = ""
        in_head = 1
        print "\n#[unsafe(no_mangle)]"
        sub(/^pub /, "pub extern \"C\" ")
    }
    in_head { print; head = head $0 }
    in_head && /^\{$/ {
        in_head = 0
        print "    spacetime::" name(head) "(" arguments(head) ")\n}"
    }

    function name(head) {
        sub(/^pub extern "C" fn /, "", head)
        sub(/[<(].*/, "", head)
        return head
    }

    # The names of the parameters.
    function arguments(head) {
        sub(/^[^(]*\(/, "", head)
        sub(/\).*/, "", head)
        gsub(/: *[^,]*/, "", head)
        return head
    }
' "$calls" >"$folder/src/lib.rt"
(cd "$folder" && rt fmt)
