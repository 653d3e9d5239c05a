#!/bin/sh
# Copies satcluster to a folder, or takes it away. It stands beside what it copies.
set -eu
usage='install.sh [--remove] [PREFIX]
Copies satcluster, the folders bin, lib and share beside this script, to PREFIX; to /usr/local if
PREFIX is left out. --remove takes away what was copied there, and nothing else.'
prefix='' copies=yes
for word; do
    case $word in
    -h | --help) echo "$usage"; exit 0 ;;
    --remove) copies=no ;;
    -*) printf 'no such word: %s\n%s\n' "$word" "$usage" >&2; exit 2 ;;
    *) prefix=$word ;;
    esac
done
from=$(cd "$(dirname "$0")" && pwd) sums=share/doc/satcluster/SHA256SUMS
mkdir -p "${prefix:-/usr/local}" && cd "${prefix:-/usr/local}"
[ "$(pwd)" != "$from" ] || { echo "it stands here already" >&2; exit 1; }
if [ -f $sums ]; then # of this version or of another one: the list names what was copied
    rm -f $(cut -c67- $sums) $sums
    find share/doc/satcluster -name __pycache__ -prune -exec rm -r {} + # of a Python that ran clients
    find lib/satcluster share/doc/satcluster -depth -type d -exec rmdir {} +
fi
[ $copies = no ] || cp -RPf "$from/bin" "$from/lib" "$from/share" .
