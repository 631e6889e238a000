#!/bin/sh
# Runs a program of bench/ for ours, and beside the original engine where it is installed (Debian's angelscript-dev).
#
#     sh bench/original/beside.sh NAME SOURCE ASRUN [OPTION ..]
#
# NAME.py of bench/ is run, with the program that SOURCE.cpp of this folder makes as its `--original`.
set -eu
name=$1
source=$2
asrun=$(realpath "$3")
shift 3
cd "$(dirname "$0")"
folder=$(mktemp -d)
trap 'rm -rf "$folder"' EXIT
compiler=${CXX:-c++}
if echo '#include <angelscript.h>' | "$compiler" -x c++ -E - > "$folder/found" 2>&1; then
    "$compiler" -std=c++17 -O2 -Wall -Wextra "$source.cpp" -o "$folder/$source" -langelscript -lpthread
    set -- --original "$folder/$source" "$@"
else
    echo "The original engine is not installed: the figures are of our program alone."
fi
python3 "../$name.py" "$asrun" "$@"
