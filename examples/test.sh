#!/bin/sh
# test.sh PROGRAM ARCHIVE SHARED [TARGET WORD..]: builds the examples over the archive, and compares what they write with what `PROGRAM check` does:
# of the captures in samples/ and of messages of which a byte is changed; the C example once more under AddressSanitizer, and over
# the shared library; the callers in C under valgrind, if it is there, and threads that ask one set of rules under ThreadSanitizer. Compares the
# header's numbers with the crates', and what is said of texts and of a handshake's lines with their cases. Runs the fuzz target over the captures and changed copies of their messages;
# serves callers at a bus, if they are there; tests the Rust crate, and compares what its examples write. Of a library for another
# system, by GNU's name TARGET, whose programs the words run, it tries the callers in C alone, and without sanitizers and valgrind.
set -eu
program=$1 archive=$2 shared=$3 target=${4:-}
shift 3
tools=${target:+$target-}
if [ -n "$target" ]; then shift; fi
# The words that run a caller, nothing for this system. compare.py and tables.py have them from the environment.
run="$*"
export RUN="$run"
here=$(cd "$(dirname "$0")" && pwd)
built=$here/../out/${target:+$target/}examples
mkdir -p "$built"
cp "$archive" "$built/libdbus_wire.a"

: "${CC:=cc}" "${CXX:=c++}"
flags="-I$here/../include -Wall -Wextra -Wpedantic -Werror"
sanitized="-std=c99 -g $flags"
if [ -z "$target" ]; then sanitized="-fsanitize=address,undefined $sanitized"; fi
# Ends if the command does not fail: after `!`, set -e looks at no status.
must_fail() {
	if "$@"; then
		echo "did not fail: $*"
		exit 1
	fi
}

# One object of the archive, the kit's, takes and frees memory for the other.
if "${tools}nm" -A -u "$archive" | grep -v ':heap.pic.o:' | grep -Ew 'malloc|calloc|realloc|aligned_alloc|posix_memalign|mmap|sbrk|free'; then
	echo "the archive takes memory"
	exit 1
fi
# The shared library exports the calls that the header declares, and needs the C library alone.
sed -n 's/^\(DBUS_WIRE_[A-Z_]*((.*)) \)\{0,1\}\(void\|uint[0-9]*_t\|size_t\) \(dbus_wire_[a-z_]*\)(.*/\3/p' "$here/../include/dbus_wire.h" | sort > "$built/declared"
"${tools}nm" -D --defined-only "$shared" | sed -n 's/.* T \([a-z_]*\).*/\1/p' | sort | diff "$built/declared" -
test "$("${tools}objdump" -p "$shared" | grep -c NEEDED)" = 1
"$here/stack.py" "$shared" 98304 262144 $target
# It has the header's types, so that abidiff, if it is there, sees a struct that grows.
if [ -z "$target" ] && command -v abidiff > /dev/null; then
	mkdir -p "$built/grown"
	sed 's/^struct dbus_wire_checked {/&\n    uint64_t more;/' "$here/../include/dbus_wire.h" > "$built/grown/dbus_wire.h"
	printf '#include <dbus_wire.h>\nint grown;\n' | "$CC" -std=c99 -g -fno-eliminate-unused-debug-types -I"$built/grown" -fPIC -shared -o "$built/grown.so" -x c -
	must_fail abidiff --non-reachable-types "$shared" "$built/grown.so" > "$built/said"
	grep -q "'struct dbus_wire_checked' changed" "$built/said"
fi
# The deepest messages take less of it.
"$CC" -std=c99 -O2 $flags -pthread -o "$built/stack" "$here/c/stack.c" "$archive"
$run "$built/stack" | awk '{ print } $3 > ($1 == "dbus_wire_from_json" ? 131072 : 65536) { is_more = 1 } END { exit is_more }'
# The header is C and C++ without a warning, whose -Wswitch knows its enums, and the archive needs no other.
strict="-Wconversion -Wsign-conversion -Wshadow -Wcast-qual -fsyntax-only"
for std in c99 c11 c17; do echo '#include <dbus_wire.h>' | "$CC" -std=$std $flags $strict -x c -; done
for std in c++11 c++17 c++20; do echo '#include <dbus_wire.h>' | "$CXX" -std=$std $flags $strict -x c++ -; done
for source in "$here"/c/*.c; do "$CC" -std=c11 $flags -Wconversion -fsyntax-only "$source"; done
switch='switch ((enum dbus_wire_answer)it) { case DBUS_WIRE_OK: return 1; }'
printf '#include <dbus_wire.h>\nint is_ok(uint32_t it) { %s return 0; }' "$switch" > "$built/switch.c"
must_fail "$CC" $flags -fsyntax-only "$built/switch.c" 2> "$built/said"
grep -q 'switch\]' "$built/said"
"$CC" -std=c99 -O2 $flags -o "$built/check" "$here/c/check.c" -L"$built" -ldbus_wire
"$CC" -std=c99 -O2 $flags -o "$built/check_shared" "$here/c/check.c" "$shared" -Wl,-rpath,"$(cd "$(dirname "$shared")" && pwd)"
"$CC" $sanitized -o "$built/check_sanitized" "$here/c/check.c" -L"$built" -ldbus_wire
for name in list json encode swap rules build signal room habits texts lines watch pieces threads sharing explain connection; do
	"$CC" $sanitized -pthread -o "$built/$name" "$here/c/$name.c" -L"$built" -ldbus_wire
	"$CC" -std=c99 -O2 -g $flags -pthread -o "$built/plain_$name" "$here/c/$name.c" -L"$built" -ldbus_wire
done
for sample in session big-endian; do
	# The quotes are those of match rules.
	# shellcheck disable=SC2089,SC2090
	for name in room threads "sharing type='signal' member='NameAcquired' sender='org.a.B'"; do $run "$built/"$name < "$here/../samples/$sample.dbus"; done
	for length in 1 64 4096; do $run "$built/pieces" $length < "$here/../samples/$sample.dbus"; done
done
# Threads ask one set of rules, and no byte that one reads is written. ThreadSanitizer sees the caller, and what the library passes to the C library.
if [ -z "$target" ]; then
	"$CC" -std=c99 -g -fsanitize=thread $flags -pthread -o "$built/sharing_threads" "$here/c/sharing.c" -L"$built" -ldbus_wire
	"$built/sharing_threads" "type='signal'" "path='/org/a'" "member='NameAcquired'" < "$here/../samples/session.dbus"
fi
# A program that defines the three calls for memory has those, and not the archive's.
"$CC" $sanitized -o "$built/own_heap" "$here/c/rules.c" "$here/../packaging/heap.c" -L"$built" -ldbus_wire
"${tools}nm" "$built/own_heap" | grep -q ' T dbus_wire_alloc'
$run "$built/own_heap" "member='NameAcquired'" < "$here/../samples/session.dbus" > "$built/said"
# Each growth is refused in turn: a caller ends by a status of its own, and has written a front of what it writes else. It reads $given.
given=$here/../samples/session.dbus
"$CC" -shared -fPIC -O2 -o "$built/refuse_nth.so" "$here/../bench/refuse_nth.c" -ldl
try_growths() {
	name=$1
	shift
	$run "$built/plain_$name" "$@" < "$given" > "$built/whole" || true
	for nth in $(seq "${growths:-60}"); do
		status=0
		REFUSE_NTH=$nth LD_PRELOAD=$built/refuse_nth.so $run "$built/plain_$name" "$@" < "$given" > "$built/front" 2> "$built/said" || status=$?
		test "$status" -lt 126
		head -c "$(stat -c %s "$built/front")" "$built/whole" | cmp - "$built/front"
	done
}
try_growths rules "sender='org.a.B',member='NameOwnerChanged'" org.a.B=org.freedesktop.DBus
try_growths sharing "member='Hello'"
try_growths pieces 64
try_growths build again
# Lines of JSON, some of which spell no message: of each its message, or why not; 3 is the status if memory runs out.
"$program" json < "$given" > "$built/json_lines"
(head -n 2 "$built/json_lines"; echo '{"type":2'; echo '{"type":2,"fields":[{"code":10}]}'; tail -n 1 "$built/json_lines") > "$built/some_lines"
given=$built/some_lines growths=400 try_growths encode
for sample in session big-endian; do
	"$program" json < "$here/../samples/$sample.dbus" | $run "$built/encode" | cmp - "$here/../samples/$sample.dbus"
done
"$here/../cases/refused_lines.py" "$program" 3000 1 $run "$built/encode"
# Both sides of a connection, one with the other.
for length in 1 7 4096; do $run "$built/connection" $length; done
sockets=$(mktemp -d) proxy=
if command -v dbus-daemon > /dev/null; then
	bus=$(dbus-daemon --session --fork --print-pid --address="unix:path=$sockets/bus")
	trap 'kill "$bus" $proxy' EXIT
	# A client behind a proxy asks the bus, but not for what a rule denies, in none of the ways past it that are known.
	"$CC" $sanitized -o "$built/proxy" "$here/c/proxy.c" -L"$built" -ldbus_wire
	$run "$built/proxy" deny "$sockets/door" "unix:path=$sockets/bus" "type='method_call',member='GetId'" & proxy=$!
	while test ! -S "$sockets/door"; do sleep 0.1; done
	if command -v dbus-send > /dev/null; then
		ask="dbus-send --bus=unix:path=$sockets/door --print-reply --dest=org.freedesktop.DBus / org.freedesktop.DBus"
		$ask.ListNames | grep -q '"org.freedesktop.DBus"'
		must_fail $ask.GetId 2> "$built/said"
		grep -q '^Error org.freedesktop.DBus.Error.AccessDenied' "$built/said"
	fi
	kill "$bus" $proxy
	trap - EXIT
	if [ -z "$target" ]; then
		DBUS_WIRE_PROXY=$built/proxy DBUS_WIRE_LIBRARY=$(realpath "$shared") \
			python3 -W error -m unittest discover -k _proxy -k ways_past_a_policy "$here/../python/tests"
	fi
fi
rm -rf "$sockets"
# Services at a bus, one of them with descriptors: each caller that is there gets what it asks for. The folder has their programs.
for name in counter descriptors service deliveries; do
	"$CC" $sanitized -o "$built/$name" "$here/c/$name.c" -L"$built" -ldbus_wire
done
try_services() {
	if [ -n "$target" ] || ! command -v dbus-daemon > /dev/null; then return; fi
	DBUS_WIRE_EXAMPLES=$1 DBUS_WIRE_LIBRARY=$(realpath "$shared") \
		python3 -W error -m unittest discover -k test_bus "$here/../python/tests"
}
try_services "$built"
# Random deliveries of messages with descriptors, of an encoder in Python: each message comes with its own.
if [ -z "$target" ]; then
	DBUS_WIRE_DELIVERIES=10000 DBUS_WIRE_LIBRARY=$(realpath "$shared") \
		python3 "$here/../python/tests/test_deliveries.py" write > "$built/delivered"
	"$built/deliveries" < "$built/delivered"
fi
# A service of few lines at a bus says the load of this machine to gdbus in this form, and that there is no other method.
try_load() {
	if ! command -v dbus-daemon > /dev/null || ! command -v gdbus > /dev/null; then return; fi
	form=$1
	shift
	sockets=$(mktemp -d)
	bus=$(dbus-daemon --session --fork --print-pid --address="unix:path=$sockets/bus")
	DBUS_SESSION_BUS_ADDRESS=unix:path=$sockets/bus "$@" & service=$!
	trap 'kill "$bus" "$service"' EXIT
	ask="gdbus call --address unix:path=$sockets/bus --dest org.example.Load --object-path /org/example/Load --method org.example.Load"
	for _ in $(seq 100); do
		if $ask.Get > "$built/said" 2> "$built/told"; then break; fi
		sleep 0.1
	done
	grep -qx "$form" "$built/said"
	must_fail $ask.Set 2> "$built/told"
	grep -q 'Error.UnknownMethod: ' "$built/told"
	kill "$bus" "$service"
	trap - EXIT
	rm -rf "$sockets"
}
try_load "({'Load': <[0-9.]*>},)" $run "$built/service"
# A checker for which there is no memory is not made.
for nth in 1 2; do
	status=0
	LD_PRELOAD=$built/refuse_nth.so REFUSE_NTH=$nth $run "$built/plain_pieces" < "$here/../samples/session.dbus" || status=$?
	test $status = 3
done
# A side for which there is no memory is not made; one that has too little for a call goes on by the same call.
for nth in $(seq 1 60); do
	status=0
	LD_PRELOAD=$built/refuse_nth.so REFUSE_NTH=$nth $run "$built/plain_connection" 7 > "$built/said" 2>&1 || status=$?
	test $status = 0 || grep -qx 'no [a-z ]*' "$built/said"
done
# In the library's machine code too, which no sanitizer sees, no caller touches a byte that is not its own, or keeps a block to its end.
if [ -z "$target" ] && command -v valgrind > /dev/null; then
	under_valgrind() { valgrind --quiet --leak-check=full --error-exitcode=9 "$@"; }
	under_valgrind "$built/plain_signal" Name "a b" Number 7 > "$built/one"
	under_valgrind "$built/plain_room" < "$built/one"
	# The quotes are those of match rules.
	# shellcheck disable=SC2089,SC2090
	for words in list json "swap B" "rules member='NameAcquired'" "build again" habits "pieces 64" threads "sharing type='signal'"; do
		under_valgrind "$built/plain_"$words < "$here/../samples/session.dbus" > "$built/said"
	done
	valgrind --quiet --tool=helgrind --error-exitcode=9 "$built/plain_sharing" "type='signal'" "member='NameAcquired'" < "$here/../samples/session.dbus" > "$built/said"
	under_valgrind "$built/plain_connection" 7
	printf '\0AUTH EXTERNAL 31303030\r\nBEGIN\r\nl' | under_valgrind "$built/plain_lines" client > "$built/said"
	status=0
	printf 'l\1\0\2' | under_valgrind "$built/plain_explain" parts > "$built/said" || status=$?
	test $status = 1
else
	echo "no valgrind here, or none for the system: the callers are not tried under it"
fi
# No message is built if there is no memory (stdio takes the first block), or of parts that no message has.
must_fail env LD_PRELOAD="$built/refuse_nth.so" REFUSE_NTH=2 $run "$built/plain_build" < "$here/../samples/session.dbus" 2> "$built/told" > /dev/null
grep -q 'out of memory' "$built/told"
must_fail $run "$built/build" serial 0 < "$here/../samples/session.dbus" 2> "$built/told"
grep -q 'is 0$' "$built/told"
# A body that is spelled value by value is read as these values.
$run "$built/signal" Name "a b" Number 7 | "$program" show > "$built/said"
grep -q "a b" "$built/said"
"$here/tables.py" "$built/habits" "$built/texts" "$built/lines" "$program"
# Who looks on passes the lines of both sides, also if the client sends all at once, and none that servers differ on: here some servers read past
# `BEGIN` and a space, and others begin messages. A server's second answer, and BEGIN before the client is accepted, are refused too.
looks_on() {
	printf "$1" > "$built/client_sent"
	printf "$2" > "$built/server_sent"
	$run "$built/watch" "$built/client_sent" "$built/server_sent" | tr '\n' ' '
}
guid=0123456789abcdef0123456789abcdef
auth='\0AUTH EXTERNAL 31303030\r\n'
test "$(looks_on "${auth}NEGOTIATE_UNIX_FD\r\nBEGIN\r\nl" "OK $guid\r\nAGREE_UNIX_FD\r\nl")" = "client 1 client 24 client 19 server 37 server 15 client 7 messages "
for answer in REJECTED DATA "OK fedcba9876543210fedcba9876543210"; do
	test "$(looks_on "${auth}NEGOTIATE_UNIX_FD\r\nBEGIN\r\nl" "OK $guid\r\n$answer\r\n")" = "client 1 client 24 client 19 server 37 refused "
done
test "$(looks_on "${auth}BEGIN \r\nl\r\nBEGIN\r\nl" "OK $guid\r\n")" = "client 1 client 24 refused "
test "$(looks_on "${auth}" "OK $guid\r\nOK $guid\r\n")" = "client 1 client 24 server 37 refused "
test "$(looks_on "${auth}BEGIN\r\nl" "REJECTED EXTERNAL\r\n")" = "client 1 client 24 server 19 refused "
test "$(looks_on "${auth}BEGIN\r\nl" "OK $guid\r")" = "client 1 client 24 8 and 36 bytes left "
# The fuzz target finds nothing, and finds a parser that takes everything for a message.
try_fuzz() {
	changes=$1
	shift
	"$CC" $sanitized -I"$here/fuzz" -o "$built/fuzz" "$here/fuzz/fuzz.c" "$here/fuzz/files.c" "$@" -L"$built" -ldbus_wire
	$run "$built/fuzz" "$changes" "$here/../samples/session.dbus" "$here/../samples/big-endian.dbus"
}
try_fuzz 100
printf '#include "fuzz.h"\nuint32_t their_check(const uint8_t *bytes, size_t length) { return bytes == NULL && length > 0; }\n' > "$built/all.c"
if (try_fuzz 1 "$built/all.c") 2> /dev/null; then
	echo "the fuzz target does not find a parser that takes everything"
	exit 1
fi
if [ -z "$target" ] && pkg-config --exists dbus-1; then
	# The words of pkg-config are apart.
	# shellcheck disable=SC2046
	try_fuzz 0 "$here/fuzz/peer.c" "$here/../cases/peers/libdbus.c" $(pkg-config --cflags --libs dbus-1)
fi

listers=$built/list liners=$built/json swappers=$built/swap filters=$built/rules explainers=$built/explain
set -- "$built/check" "$built/check_shared" "$built/plain_pieces"
if [ -z "$target" ]; then set -- "$@" "$built/check_sanitized"; fi
if [ -n "$target" ]; then
	echo "for $target the Rust crate is not tried"
elif command -v cargo > /dev/null; then
	export DBUS_WIRE_LIB_DIR="$built" CARGO_TARGET_DIR="$built/rust"
	DBUS_WIRE_DELIVERIES_FILE=$(realpath "$built/delivered") \
		cargo test --quiet --offline --manifest-path "$here/../rust/Cargo.toml"
	cargo build --quiet --offline --release --examples --manifest-path "$here/../rust/Cargo.toml"
	rust=$built/rust/release/examples
	try_services "$rust"
	DBUS_WIRE_LIBRARY=$shared "$here/typed.py" "$rust/again"
	listers=$listers,$rust/list liners=$liners,$rust/json swappers=$swappers,$rust/swap filters=$filters,$rust/filter explainers=$explainers,$rust/explain
	set -- "$@" "$rust/check"
else
	echo "no cargo here: the Rust crate is not tried"
fi
exec "$here/compare.py" "$program" "$listers" "$liners" "$swappers" "$filters" "$built/build" "$explainers" "$@"
