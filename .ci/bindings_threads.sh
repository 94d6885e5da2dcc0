#!/bin/sh
# Sixteen threads with ten thousand calls each on one ledger, over a library that `bindings/libraries.sh` has left: under the sanitizers of
# threads and of addresses, which see the program, its threads and each allocation of the library's; and under valgrind's memcheck and
# helgrind, which see each access that the library makes. What isn't there is left out. The built program verifies each report.
#
# The library stores into words that threads share by locked instructions alone. Helgrind takes such a store for a load, so it reports each
# other store into memory that a second thread uses, and nothing has to be suppressed. A note is handed over in memory that a
# compare-exchange gives to one thread at a time. Helgrind doesn't see that, so under it a lock of the program orders the two threads that
# reach for a note. That it sees the library is tried too: it has to report two threads that use one caller one after another, where nothing
# orders the two.
#
#   bindings_threads.sh LIBRARIES
set -eu
cd "$(dirname "$0")/.."
cc=${CC:-cc}
library=$1/libbezglami.a
work=$(mktemp -d)
trap 'rm -rf -- "$work"' EXIT
flags="-std=c11 -D_POSIX_C_SOURCE=200809L -Wall -Wextra -Werror -O1 -g -pthread -Ibindings/c"

# Whether the compiler has a sanitizer.
has() {
    echo 'int main(void) { return 0; }' >"$work/empty.c"
    "$cc" -fsanitize="$1" "$work/empty.c" -o "$work/empty" 2>/dev/null && "$work/empty"
}

# Runs the threads by a command, with their notes ordered or as they come, and has their report verified.
thread_runs() {
    name=$1
    notes=$2
    shift 2
    "$@" "$work/threads" 10000 "$work" "$notes" >"$work/said" 2>&1 || { cat "$work/said" >&2; exit 1; }
    set --
    p=0
    while [ "$p" -lt 16 ]; do
        set -- "$@" "$work/pay$p.csv"
        p=$((p + 1))
    done
    .ci/bindings_verify.sh "threads.c under $name" "$work/book.csv" "$work/report" "$@"
}

for sanitizer in thread address,undefined; do
    if has "$sanitizer"; then
        "$cc" $flags -fsanitize="$sanitizer" bindings/c/threads.c "$library" -o "$work/threads"
        thread_runs "-fsanitize=$sanitizer" as-they-come env
    else
        .ci/left_out.sh "threads under -fsanitize=$sanitizer" 'the compiler has none'
    fi
done
if command -v valgrind >/dev/null; then
    "$cc" $flags bindings/c/threads.c "$library" -o "$work/threads"
    for tool in memcheck helgrind; do
        case $tool in
            memcheck) notes=as-they-come words='--leak-check=full --show-leak-kinds=all --errors-for-leak-kinds=all' ;;
            helgrind) notes=ordered words=--history-level=none ;;
        esac
        thread_runs "$tool" "$notes" valgrind --quiet --error-exitcode=9 --fair-sched=yes --tool="$tool" $words
    done
    if valgrind --quiet --error-exitcode=9 --fair-sched=yes --tool=helgrind --history-level=none "$work/threads" unordered >"$work/said" 2>&1; then
        echo 'bindings: helgrind reports nothing where two threads use one caller' >&2
        exit 1
    fi
    # The access that it reports is one of the library's, in whatever function the compiler has left it.
    if ! grep -A 2 'Possible data race' "$work/said" | grep -q -e ': at_[a-z]*::' -e ': bezglami_'; then
        echo 'bindings: helgrind reports no access of the library where two threads use one caller' >&2
        exit 1
    fi
else
    .ci/left_out.sh 'threads under valgrind' 'no valgrind'
fi
