#!/bin/sh
# Compiles questions.c, runs it on the samples, and asks ./certpath for a path by the vouchers that it writes. All files are
# written into a folder that goes away.
set -eu
cd "$(dirname "$0")/../.."
room=$(mktemp -d)
trap 'rm -rf "$room"' EXIT
cc -Iinclude examples/c/questions.c -o "$room/questions" dist/libcertpath.a -lcrypto
# (samples/bundle.der has a list that revokes the leaf; this bundle has one that doesn't)
./bundle samples/fullchain.pem samples/other_list.pem > "$room/bundle.der"
"$room/questions" "$room/bundle.der" samples/root.der "$room/vouchers.txt" 2026-12-01
./certpath path "$room/bundle.der" samples/root.der "$room/vouchers.txt" \
    --target 0 --at 2026-12-01T00:00:00
