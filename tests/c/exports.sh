#!/bin/sh
# Compares the names that a program prints, one a line, with the functions that include/card.h declares: tests/c/exports.sh PROGRAM WORD. It fails where either has a name that the other has not, and where there is none at all.
cd "$(dirname "$0")/../.." || exit 1
mkdir -p target
"$@" | sort >target/exports.said || exit 1
sed -n '/^static /d; s/^[a-z][a-z0-9_ ]* \**\(\(card\|gpt\)_[a-z0-9_]*\)(.*/\1/p' include/card.h | sort >target/exports.declared
[ -s target/exports.declared ] || { echo "exports: no function is found in include/card.h"; exit 1; }
diff target/exports.declared target/exports.said >target/exports.diff && exit
sed -n -e "s/^< \(.*\)/exports: \1 is declared in include\/card.h, and $(basename "$1") has no row for it/p" -e "s/^> \(.*\)/exports: $(basename "$1") has a row for \1, which include\/card.h does not declare/p" target/exports.diff
exit 1
