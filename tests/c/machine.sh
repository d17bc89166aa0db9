#!/bin/sh
# The library is for x86-64: the header refuses to be compiled for other machines, and says why.
cd "$(dirname "$0")/../.." || exit 1

# compiled FLAG..: compiles a program that only includes the header, and prints the first error.
compiled() {
    echo '#include "card.h"' | LC_ALL=C cc -std=c11 -Iinclude "$@" -fsyntax-only -x c - 2>&1
}

said=$(compiled) || { echo "machine: the header is refused on this machine: $said"; exit 1; }
for flag in -m32 -mx32; do
    said=$(compiled $flag) && { echo "machine: the header is accepted with $flag"; exit 1; }
    case $said in
        *'card.h:'*'#error "libcard is for x86-64"'*) ;;
        *) echo "machine: with $flag the compiler says: $said"; exit 1 ;;
    esac
done
echo "machine: the header is for x86-64 alone"
