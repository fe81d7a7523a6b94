#!/usr/bin/env bash
# Proves the exports, builds the static library, and puts it where rust/ and oracle/driver/ look for it.
set -e
cd "$(dirname "$0")/.."
if ! command -v rt >/dev/null; then
    echo "tools/archive.sh: no rt at hand: the Rattle toolchain proves and builds the archive" >&2
    exit 1
fi
(cd crates/exports && rt lib)
mkdir -p target/staticlib
cp crates/exports/out/libexports.a target/staticlib/libpemzhulaq.a
echo target/staticlib/libpemzhulaq.a
