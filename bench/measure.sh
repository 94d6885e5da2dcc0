#!/bin/bash
# Compares the proved program with the plain Rust program of this folder, on the largest input that is accepted, and
# measures `deliver`, which has no plain one.
#
#   bench/measure.sh PROGRAM [TURNS [deliver]]
#
# PROGRAM is the proved one, as crates/at_program/out/at_program. Each figure is the best of TURNS turns (40), in which
# the programs take turns. With `deliver` as the third word that command alone is measured, and nothing is built. The
# sources of the csv crate are Debian's package librust-csv-dev, which is installed if it isn't there; nothing else is
# fetched. Everything is made in a new folder, which is removed at the end.

set -euo pipefail
export LC_ALL=C
if [ $# -lt 1 ] || [ ! -x "$1" ] || [ "${3-deliver}" != deliver ]; then
    echo "usage: measure.sh PROGRAM [TURNS [deliver]]" >&2
    exit 2
fi
proved=$(realpath -- "$1")
turns=${2:-40}
part=${3-all}
here=$(cd -- "$(dirname -- "$0")" && pwd)
work=$(mktemp -d)
trap 'rm -rf -- "$work"' EXIT
plain=$work/built/release/plain
# What the C library's allocator is told, of both programs, where a figure says "with the settings": what `./bezglami` tells it.
settings=$(sed -n 's/^allocator=//p' "$here/../bezglami")
tunables=
unset GLIBC_TUNABLES

# Builds the plain program in the new folder.
build_plain() {
    dpkg -s librust-csv-dev >/dev/null 2>&1 || apt-get install -y librust-csv-dev >/dev/null
    local sources
    sources=$(dpkg -L librust-csv-dev | sed -n 's|/csv-[0-9.]*$||p' | head -n 1)
    cp -r -- "$here" "$work/plain"
    cargo build --quiet --release --offline --manifest-path "$work/plain/Cargo.toml" --target-dir "$work/built" \
        --config 'source.crates-io.replace-with="debian"' --config "source.debian.directory=\"$sources\""
}

# Makes a book of so many processes and 1,024 accounts, and so many calls for each process, in a folder.
make_input() {
    mkdir -p -- "$2"
    awk -v processes="$1" -v folder="$2" -v calls="$3" '
        function draw(below) { x = x * 16807 % 2147483647; return x % below }
        # The first 16 accounts have eight owners, the next 8 have none, and the others one each.
        function owners(a,    first, list, i) {
            if (a >= 24) return a % processes
            if (a >= 16) return ""
            first = processes > 8 ? 8 * (a % 2) : 0
            list = first
            for (i = 1; i < 8; i++) list = list " " first + i
            return list
        }
        function own(p) { return p + processes * (3 + draw(1024 / processes - 3)) }
        function transfer(from) { return "transfer," from "," draw(1024) "," 1 + draw(1000000000) }
        function call(p,    kind) {
            kind = draw(8)
            if (kind < 4) return "read," draw(1024)
            if (kind < 7) return transfer(own(p))
            return transfer(draw(64))
        }
        BEGIN {
            x = 20190729
            file = folder "/book.csv"
            print "book,1\nprocesses," processes "\nlimits,4096,64" > file
            for (a = 0; a < 1024; a++) printf "account,%d,%.0f,%s\n", a, 1000 * draw(1000000000), owners(a) > file
            close(file)
            for (p = 0; p < processes; p++) {
                file = folder "/pay" p ".csv"
                for (i = 0; i < calls; i++) print call(p) > file
                close(file)
            }
        }'
}

# Makes a book of 16 processes and 1,024 accounts with names, and 16,384 pay-outs of four targets for each process.
make_named() {
    mkdir -p -- "$1"
    awk -v folder="$1" '
        function draw(below) { x = x * 16807 % 2147483647; return x % below }
        function account(a) { return sprintf("account-%04d", a) }
        BEGIN {
            x = 20190729
            file = folder "/book.csv"
            printf "book,2\nprocesses" > file
            for (p = 0; p < 16; p++) printf ",owner-%02d", p > file
            print "\nlimits,4096,64" > file
            for (a = 0; a < 1024; a++) printf "account,%s,%.0f,owner-%02d\n", account(a), 1000 * draw(1000000000), a % 16 > file
            close(file)
            for (p = 0; p < 16; p++) {
                file = folder "/pay" p ".csv"
                for (i = 0; i < 16384; i++) {
                    printf "pay,%s", account(p + 16 * draw(64)) > file
                    for (t = 0; t < 4; t++) printf ",%s,%d", account(draw(1024)), 1 + draw(1000000) > file
                    print "" > file
                }
                close(file)
            }
        }'
}

# Makes a book of 16 processes and 16 accounts of eight owners each, and 1,024 calls for each process: pay-outs from the
# accounts that it shares, and now and then a read. All its requests on each of these are used.
make_shared() {
    mkdir -p -- "$1"
    awk -v folder="$1" '
        function draw(below) { x = x * 16807 % 2147483647; return x % below }
        BEGIN {
            x = 20190729
            file = folder "/book.csv"
            print "book,1\nprocesses,16\nlimits,4096,64" > file
            for (a = 0; a < 16; a++) print "account," a ",1000000000," (a % 2 ? "8 9 10 11 12 13 14 15" : "0 1 2 3 4 5 6 7") > file
            close(file)
            for (p = 0; p < 16; p++) {
                file = folder "/pay" p ".csv"
                for (i = 0; i < 1024; i++) {
                    if (i % 2) print "read," draw(16) > file
                    else print "transfer," 2 * (int(i / 2) % 8) + (p >= 8) "," draw(16) "," 1 + draw(1000000) > file
                }
                close(file)
            }
        }'
}

# Makes a book of 16 processes that each own an account, and 16,384 calls for each of them: all read account 0, whose owner
# pays from it in every fourth call.
make_one_read() {
    mkdir -p -- "$1"
    awk -v folder="$1" '
        BEGIN {
            file = folder "/book.csv"
            print "book,1\nprocesses,16\nlimits,4096,64" > file
            for (a = 0; a < 16; a++) print "account," a ",1000000000," a > file
            close(file)
            for (p = 0; p < 16; p++) {
                file = folder "/pay" p ".csv"
                for (i = 0; i < 16384; i++) print (p == 0 && i % 4 == 0 ? "transfer,0,1,1" : "read,0") > file
                close(file)
            }
        }'
}

# Makes a book of 16 processes and 1,024 accounts of one owner each, so many messages of each process, and the deliveries
# of all of them to each node. Message m of each process rests on all messages below m. An order is
#
#   forwards    by number: each delivery makes its message valid
#   backwards   by falling number: nothing is valid until the last messages come, which make all the others valid
#   waiting     by number, after those of the last process, which rest on its own alone. The first message of each other
#               process is never covered, and is tested again at each delivery
make_broadcast() {
    mkdir -p -- "$3"
    awk -v order="$1" -v messages="$2" -v folder="$3" '
        function draw(below) { x = x * 16807 % 2147483647; return x % below }
        function own(p) { return p + 16 * draw(64) }
        function send(p, m,    line, q) {
            if (order == "waiting" && p == 15) line = "send," own(p) "," m % 15 "," 1 + draw(1000000)
            else if (order == "waiting") line = "send," p "," draw(1024) ",1000000000000"
            else line = "send," own(p) "," draw(1024) "," 1 + draw(1000000)
            for (q = 0; q < 16; q++) line = line "," (order == "waiting" && q != p ? 0 : m)
            return line
        }
        function deliver(first, last, m,    node, p) {
            for (node = 0; node < 16; node++)
                for (p = first; p <= last; p++) print node "," p "," m > file
        }
        BEGIN {
            x = 20190729
            file = folder "/book.csv"
            print "book,1\nprocesses,16\nlimits,4,4" > file
            for (a = 0; a < 1024; a++) print "account," a ",1000000000," a % 16 > file
            close(file)
            for (p = 0; p < 16; p++) {
                file = folder "/send" p ".csv"
                for (m = 0; m < messages; m++) print send(p, m) > file
                close(file)
            }
            file = folder "/order.csv"
            if (order == "forwards") for (m = 0; m < messages; m++) deliver(0, 15, m)
            if (order == "backwards") for (m = messages - 1; m >= 0; m--) deliver(0, 15, m)
            if (order == "waiting") {
                for (m = 0; m < messages; m++) deliver(15, 15, m)
                for (m = 0; m < messages; m++) deliver(0, 14, m)
            }
        }'
}

# The message files of a folder, in process order.
messages_of() {
    local p
    sent=()
    for ((p = 0; p < 16; p++)); do sent+=("$1/send$p.csv"); done
}

# The payment files of a folder, in process order.
payments_of() {
    local p
    payments=()
    for ((p = 0; p < $1; p++)); do payments+=("$2/pay$p.csv"); done
}

# Runs a program under what `tunables` says to the allocator.
with_tunables() {
    if [ -z "$tunables" ]; then "$@"; else GLIBC_TUNABLES=$tunables "$@"; fi
}

# Runs a program, and leaves its microseconds in `took`. Its status is not looked at. The text of the run before is
# removed first, so that its removal falls into no program's time.
run_timed() {
    local began ended
    rm -f -- "$work/text"
    began=$EPOCHREALTIME
    with_tunables "$@" >"$work/text" 2>"$work/refusal" || true
    ended=$EPOCHREALTIME
    took=$((${ended/./} - ${began/./}))
}

# Keeps the least time of each name.
declare -A best
keep_best() {
    run_timed "${@:2}"
    if [ -z "${best[$1]-}" ] || [ "$took" -lt "${best[$1]}" ]; then best[$1]=$took; fi
}

ratio() {
    awk -v a="${best[$1]}" -v b="${best[$2]}" 'BEGIN { printf "%.2f", a / b }'
}

milliseconds() {
    awk -v a="${best[$1]}" 'BEGIN { printf "%.1f ms", a / 1000 }'
}

# Both programs print the same of `check`, and the plain one accepts the report of both for a run of a folder.
compare() {
    local program
    payments_of 16 "$2"
    [ "$1" = 8 ] && payments_of 8 "$2"
    for program in "$proved" "$plain"; do
        "$program" run "$2/book.csv" "${payments[@]}" >"$work/$(basename -- "$program").report"
        "$plain" accept "$2/book.csv" "$work/$(basename -- "$program").report" "${payments[@]}" >"$work/accepted"
    done
    cmp <("$proved" check "$2/book.csv" "${payments[@]}") <("$plain" check "$2/book.csv" "${payments[@]}") || { echo "the programs differ at check" >&2; exit 1; }
    echo "$1: $(cat "$work/accepted") calls, a report of $(wc -c <"$work/$(basename -- "$proved").report") bytes"
}

# Runs a book by both programs in turns, without the settings and with them.
run_named() {
    local turn set
    payments_of 16 "$2"
    for ((turn = 0; turn < turns; turn++)); do
        for set in "" " set"; do
            tunables=${set:+$settings}
            keep_best "proved $1$set" "$proved" run "$2/book.csv" "${payments[@]}"
            keep_best "plain $1$set" "$plain" run "$2/book.csv" "${payments[@]}"
        done
    done
    tunables=
    for set in "" " set"; do
        echo "$1${set:+, with the settings}: proved $(milliseconds "proved $1$set"), plain $(milliseconds "plain $1$set"), proved to plain $(ratio "proved $1$set" "plain $1$set")"
    done
}

# How long the parts of one run take by the clock, if perf is there. It looks ten times a millisecond which function
# each thread is in; a part begins with the first look at a function of its crates after the part before began. Making a
# ledger is no call.
time_parts() {
    command -v perf >/dev/null || return 0
    payments_of 16 "$work/input16"
    with_tunables perf record --quiet -e cpu-clock -c 100000 -o "$work/samples" "$proved" run "$work/input16/book.csv" "${payments[@]}" >"$work/text" 2>/dev/null || return 0
    perf script -i "$work/samples" -F time,ip,sym 2>/dev/null | awk -v settings="$1" '
        BEGIN {
            parts = split("reading and making the board,calls and closing,journal,report", name, ",")
            split("^at_files:: ^at_(object|single|shared|snapshot|fold):: ^at_journal:: ^at_report::", functions, " ")
        }
        {
            at = 1000 * $1
            if (!looks++) start = at
            for (i = part + 1; i <= parts && i <= part + 2; i++) if ($3 ~ functions[i] && $3 !~ /::Ledger::new$/) { part = i; began[i] = at; break }
        }
        END {
            began[1] = start
            began[parts + 1] = at
            for (i = parts; i > 1; i--) if (!(i in began)) began[i] = began[i + 1]
            for (i = 1; i <= parts; i++) printf "parts of run, proved%s, %s: %.1f ms\n", settings, name[i], began[i + 1] - began[i]
        }'
}

# Where the instructions of a run go, if valgrind is there: what each part takes of them, with all that it calls.
count_instructions() {
    local part
    command -v valgrind >/dev/null || return 0
    payments_of 16 "$work/input16"
    valgrind --tool=callgrind --callgrind-out-file="$work/calls" "$proved" run "$work/input16/book.csv" "${payments[@]}" >/dev/null 2>&1
    callgrind_annotate --inclusive=yes --threshold=100 "$work/calls" >"$work/counted" 2>/dev/null
    for part in "reading at_files::payments::read_payments" "running std::thread::fork::chunks_from::" "order at_journal::order::order_of" "keys at_journal::lines::push_calls" "lines at_report::lines::push_line_at"; do
        echo "instructions of run, ${part% *}: $(grep -m 1 -F -- "${part#* }" "$work/counted" | grep -o '[0-9.]*%' | head -n 1)"
    done
}

take_turns() {
    local turn n input
    for ((turn = 0; turn < turns; turn++)); do
        for n in 8 16; do
            input=$work/input$n
            payments_of "$n" "$input"
            keep_best "proved run $n" "$proved" run "$input/book.csv" "${payments[@]}"
            keep_best "plain run $n" "$plain" run "$input/book.csv" "${payments[@]}"
            keep_best "proved check $n" "$proved" check "$input/book.csv" "${payments[@]}"
            keep_best "plain check $n" "$plain" check "$input/book.csv" "${payments[@]}"
            keep_best "plain records $n" "$plain" records "$input/book.csv" "${payments[@]}"
        done
        take_set_turn
    done
}

# The same of both programs with the settings.
take_set_turn() {
    local word n
    tunables=$settings
    for n in 8 16; do
        payments_of "$n" "$work/input$n"
        for word in run check; do
            keep_best "proved $word $n set" "$proved" "$word" "$work/input$n/book.csv" "${payments[@]}"
            keep_best "plain $word $n set" "$plain" "$word" "$work/input$n/book.csv" "${payments[@]}"
        done
    done
    tunables=
}

# Verifies the report of so many calls of each of 16 processes, beside `check` on the same files, in turns. The report
# of the largest input is too long to be verified.
verify_reports() {
    local turn calls input
    for ((turn = 0; turn < turns; turn++)); do
        for calls in "$@"; do
            input=$work/verify$calls
            payments_of 16 "$input"
            keep_best "verify check $calls" "$proved" check "$input/book.csv" "${payments[@]}"
            keep_best "verify $calls" "$proved" verify "$input/book.csv" "$input/report" "${payments[@]}"
            [ "$(cat "$work/text")" = "verified $((16 * calls))" ] || { echo "a report was not verified" >&2; exit 1; }
        done
    done
}

# Checks a book with names and its pay-outs, by both programs in turns.
check_named() {
    local turn
    make_named "$work/named"
    payments_of 16 "$work/named"
    for ((turn = 0; turn < turns; turn++)); do
        keep_best "proved named" "$proved" check "$work/named/book.csv" "${payments[@]}"
        cp -- "$work/text" "$work/proved.text"
        keep_best "plain named" "$plain" named "$work/named/book.csv" "${payments[@]}"
        cmp -- "$work/proved.text" "$work/text" || { echo "the programs differ at a book with names" >&2; exit 1; }
    done
    echo "names, check: proved $(milliseconds "proved named"), plain $(milliseconds "plain named"), proved to plain $(ratio "proved named" "plain named")"
}

# How many lines of a text say that so many messages of each process are validated, or of the last one alone.
validated_by() {
    local p line=validated
    for ((p = 0; p < 15; p++)); do line="$line $([ "$1" = waiting ] && echo 0 || echo "$2")"; done
    grep -c -x -- "$line $2" "$3"
}

# Delivers so many messages of each of 16 processes to 16 nodes, in each order and in turns. The nodes have to validate
# what they are made to, and the same in both orders in which all messages become valid.
deliver_all() {
    local turn messages order input
    for messages in "$@"; do
        for order in forwards backwards waiting; do make_broadcast "$order" "$messages" "$work/$order$messages"; done
    done
    for ((turn = 0; turn < turns; turn++)); do
        for messages in "$@"; do
            for order in forwards backwards waiting; do
                input=$work/$order$messages
                messages_of "$input"
                keep_best "$order $messages" "$proved" deliver "$input/book.csv" "$input/order.csv" "${sent[@]}"
                mv -- "$work/text" "$input/text"
                [ "$(validated_by "$order" "$messages" "$input/text")" = 16 ] || { echo "not all is validated that should be" >&2; exit 1; }
            done
            cmp -- "$work/forwards$messages/text" "$work/backwards$messages/text" || { echo "two orders end in other nodes" >&2; exit 1; }
        done
    done
}

# Measures `deliver` at its limits, and at half as many messages.
measure_deliver() {
    local messages order
    deliver_all 128 256
    for messages in 128 256; do
        for order in forwards backwards waiting; do
            echo "$((256 * messages)) deliveries, $order: $(milliseconds "$order $messages")"
        done
    done
    for order in forwards backwards waiting; do
        echo "deliver, 65,536 deliveries to 32,768, $order: $(ratio "$order 256" "$order 128")"
    done
}

# Refuses a file of so many bytes beside a book of one process.
refuse_long() {
    local turn
    printf 'book,1\nprocesses,1\nlimits,4,4\naccount,0,100,0\n' >"$work/one.csv"
    truncate -s "$1" "$work/long.csv"
    for ((turn = 0; turn < turns; turn++)); do
        keep_best "long $1" "$proved" check "$work/one.csv" "$work/long.csv"
        [ "$(cat "$work/refusal")" = "too long: file 1" ] || { echo "a file of $1 bytes was not refused" >&2; exit 1; }
    done
    echo "a file of $1 bytes: refused in $(milliseconds "long $1")"
}

# The most memory and the page faults of `run`.
count_memory() {
    local peak faults
    [ -x /usr/bin/time ] || return 0
    payments_of 16 "$work/input16"
    with_tunables /usr/bin/time -f '%M %R' -o "$work/memory" "$1" run "$work/input16/book.csv" "${payments[@]}" >/dev/null
    read -r peak faults <"$work/memory"
    echo "memory of run, $2: $((peak / 1024)) MiB at most, $faults page faults"
}

if [ "$part" = deliver ]; then
    measure_deliver
    exit
fi
build_plain
for n in 8 16; do
    make_input "$n" "$work/input$n" 16384
    compare "$n" "$work/input$n"
done
make_shared "$work/shared"
compare "much sharing" "$work/shared"
make_one_read "$work/one_read"
compare "one account read" "$work/one_read"
take_turns
make_input 16 "$work/half" 8192
run_named "half the calls" "$work/half"
run_named "all calls" "$work/input16"
run_named "much sharing" "$work/shared"
run_named "one account read" "$work/one_read"
for n in 8 16; do
    echo "$n processes, run: proved $(milliseconds "proved run $n"), plain $(milliseconds "plain run $n")"
    echo "$n processes, check: proved $(milliseconds "proved check $n"), plain $(milliseconds "plain check $n"), records alone $(milliseconds "plain records $n")"
done
for word in run check; do
    for n in 8 16; do
        echo "$n processes, $word, with the settings: proved $(milliseconds "proved $word $n set"), plain $(milliseconds "plain $word $n set"), proved to plain $(ratio "proved $word $n set" "plain $word $n set")"
    done
    echo "$word, 16 processes to 8, with the settings: $(ratio "proved $word 16 set" "proved $word 8 set")"
done
echo "run, proved to plain: $(ratio "proved run 16" "plain run 16")"
echo "check, proved to plain: $(ratio "proved check 16" "plain check 16")"
echo "check, proved to records alone: $(ratio "proved check 16" "plain records 16")"
echo "run, all calls to half: $(ratio "proved all calls" "proved half the calls")"
echo "run, all calls to half, with the settings: $(ratio "proved all calls set" "proved half the calls set")"
echo "run, 16 processes to 8: $(ratio "proved run 16" "proved run 8")"
echo "check, 16 processes to 8: $(ratio "proved check 16" "proved check 8")"
for calls in 6144 12288; do
    make_input 16 "$work/verify$calls" "$calls"
    payments_of 16 "$work/verify$calls"
    "$proved" run "$work/verify$calls/book.csv" "${payments[@]}" >"$work/verify$calls/report"
done
verify_reports 6144 12288
for calls in 6144 12288; do
    echo "$calls calls of each process, a report of $(wc -c <"$work/verify$calls/report") bytes: verify $(milliseconds "verify $calls"), check $(milliseconds "verify check $calls"), verify to check $(ratio "verify $calls" "verify check $calls")"
done
echo "verify, 12,288 calls to 6,144: $(ratio "verify 12288" "verify 6144")"
check_named
measure_deliver
refuse_long 8388609
refuse_long 4294967296
for tunables in "" "$settings"; do
    count_memory "$proved" "proved${tunables:+, with the settings}"
    count_memory "$plain" "plain${tunables:+, with the settings}"
    time_parts "${tunables:+, with the settings}"
done
tunables=
count_instructions
