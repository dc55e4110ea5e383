#!/usr/bin/env bash
# Stands for rt in the tests: a crate whose source says `false` is not proved, and one that says `syntax` does not reach the prover.
set -euo pipefail

main() {
    local name
    case $1 in
    all)
        echo '== summary'
        for name in crates/*; do
            echo "${name#crates/}: $(verdict "$(<"$name/src/lib.rt")" ok 'failed (1)' 'failed (1)')"
        done
        ;;
    must-fail)
        for name in "${@:2}"; do
            edits "$name"
        done
        ;;
    esac
}

# Says of each edit of a crate what the prover does with it.
edits() {
    local edit old new text
    for edit in crates/"$1"/must-fail/*.edit; do
        old=$(sed --quiet 's/^old: //p' "$edit")
        new=$(sed --quiet 's/^new: //p' "$edit")
        text=$(<"crates/$1/src/lib.rt")
        echo "rt: must-fail $1/${edit##*/}: $(verdict "${text/"$old"/"$new"}" 'NOT REFUSED: the crate is still proved with this edit' \
            'refused, as it must be' $'BAD EDIT: it did not reach the prover; the first lines of what it said:\nsrc/lib.rt:1:1: error[unexpected-token]: expected an item')"
    done
}

# One of three words, by what a text says: it is proved, is not, or does not reach the prover.
verdict() {
    case $1 in
    *syntax*) echo "$4" ;;
    *false*) echo "$3" ;;
    *) echo "$2" ;;
    esac
}

main "$@"
