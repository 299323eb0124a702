#!/bin/sh
# The first job: formats a file in a fresh folder, stores a value and reads it back. Each command is shown with what it
# prints.
set -eu
program=$(realpath "$1")
folder=$(mktemp -d)
trap 'rm -rf "$folder"' EXIT
cd "$folder"
snapd() { "$program" "$@"; }
show() {
    echo "\$ $1"
    eval "$1"
}
echo "In a fresh folder, $folder:"
show "snapd format manifest.seg"
show "echo 'step 100 checkpoint-100.bin' | snapd put manifest.seg"
show "snapd get manifest.seg"
show "snapd check manifest.seg"
