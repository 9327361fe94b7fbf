#!/usr/bin/env bash
# Tries the edits of crates/maker/not-compiled/ on a copy of the crates, after `rt ci`: the compiler must refuse each of
# them with the error that the edit names, before anything is proved. The last line says how many it refused.
set -eu
cd "$(dirname "$0")/.."
copy=$(mktemp -d)
trap 'rm -rf "$copy"' EXIT

cp crates.txt "$copy"
for folder in crates/*/src crates/*/specs crates/*/proofs; do
    [ -d "$folder" ] || continue
    mkdir -p "$copy/$(dirname "$folder")"
    cp -r "$folder" "$copy/$folder"
done

field() { sed -n "s/^$1: //p" "$2"; }

# The program with the one text that the edit replaces.
edited() {
    OLD=$(field old "$1") NEW=$(field new "$1") awk '
        { at = index($0, ENVIRON["OLD"]) }
        at { $0 = substr($0, 1, at - 1) ENVIRON["NEW"] substr($0, at + length(ENVIRON["OLD"])); hits++ }
        { print }
        END { exit hits != 1 }' "crates/maker/$(field file "$1")"
}

# The program as it stands compiles, so what an edit is refused for is the edit's.
(cd "$copy/crates/maker" && rt try </dev/null >/dev/null 2>&1) || { echo "not-compiled: the program does not run as it stands"; exit 1; }

refused=0
for edit in crates/maker/not-compiled/*.edit; do
    label=$(basename "$edit" .edit)
    edited "$edit" >"$copy/crates/maker/$(field file "$edit")" || { echo "not-compiled $label: BAD EDIT"; exit 1; }
    said=$(cd "$copy/crates/maker" && rt try </dev/null 2>&1) && { echo "not-compiled $label: NOT REFUSED"; exit 1; }
    case $said in
    *"error[$(field error "$edit")]"*) echo "not-compiled $label: refused, as it must be ($(field error "$edit"))" ;;
    *) echo "not-compiled $label: refused for another reason"; echo "$said" | head -n 5; exit 1 ;;
    esac
    refused=$((refused + 1))
done
echo "$refused"
