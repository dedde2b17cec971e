#!/bin/sh
# Builds and runs the crash test: PROGRAM, killed so many times while it writes an image. The last line is "N passed, M failed".
set -u
program=$1
kills=${2:-500}
source=$(dirname "$0")/crash.rs
folder=$(mktemp -d) || exit 2
trap 'rm -rf "$folder"' EXIT
if ! rustc -O -o "$folder/crash" "$source"; then
    echo "0 passed, 1 failed"
    exit 1
fi
"$folder/crash" "$program" "$kills" "$folder"
