#!/usr/bin/env bash
# bench/try_dbus_wire.sh WORD..: runs dbus-wire by `rt try`, without its proofs. That does not wait for input that comes
# late, and what it says itself, and empty lines, come on standard error too, so these are left out.
input=$(mktemp)
trap 'rm -f "$input"' EXIT
cat > "$input"
cd "$(dirname "$(readlink -f "$0")")/../crates/dbus_wire" || exit
rt try -- "$@" < "$input" 2> >(grep -v -E '^((interpreter|checked|races|run)[:=].*)?$' >&2)
