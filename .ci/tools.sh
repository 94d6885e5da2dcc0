#!/bin/sh
# Installs from Debian the tools that the tables of cases and the scripts of bindings need, where they aren't there. Where that may not be, it says so, and
# those scripts leave out what they would try with them.
missing=
for pair in cc:gcc c++:g++ ar:binutils python3:python3 cargo:cargo valgrind:valgrind pkg-config:pkg-config /usr/bin/pip3:python3-pip hledger:hledger ledger:ledger; do
    command -v "${pair%:*}" >/dev/null || missing="$missing ${pair#*:}"
done
[ -n "$missing" ] || exit 0
if [ "$(id -u)" -eq 0 ] && command -v apt-get >/dev/null &&
    { timeout 300 apt-get install -y -q $missing || { timeout 300 apt-get update -q && timeout 300 apt-get install -y -q $missing; }; } >/dev/null 2>&1; then
    echo "tools: installed$missing"
else
    echo "tools: not there, and not installed:$missing"
fi
