# The library in bad hands and in many threads: plainly, under gcc's sanitizers, and under valgrind.

mkdir bad-use
compile "$root/tests/bad_use.c" bad-use/bad_use
bad-use/bad_use
passed "bad use: no lists, false lengths and rooms, every alignment, damaged and random bytes, every refusal"
compile "$root/tests/threads.c" bad-use/threads -pthread
bad-use/threads
passed "threads: sixteen of them on one image, each with data of its own in between"
compile "$root/tests/order.c" bad-use/order

# What the examples are tried on: right, damaged, and refused for other reasons.
cp "$root/examples/diary.txt" "$root/examples/metres.txt" "$root/examples/brackets.txt" diary.plq bad-use/
cp diary.plq bad-use/damaged.plq
printf '\377' | dd of=bad-use/damaged.plq bs=1 seek=1324 conv=notrunc status=none
head -c 2559 diary.plq >bad-use/short.plq
echo 0 1 2 1 >bad-use/no-tree.txt
echo 0 1 one >bad-use/no-numbers.txt
seq 51 >bad-use/one-too-few.txt
head -c 100 "$root/examples/brackets.txt" >bad-use/cut-off.txt
head -c 1048577 /dev/zero >bad-use/too-long.txt
seq 0 64 | seal >bad-use/65-levels.plq

example_runs() { # FOLDER [WORDS..]: what the examples in FOLDER say, and how they end, each run with WORDS before it
    local command status
    while read -r -a command; do
        status=0
        "${@:2}" "$1/${command[0]}" "${command[@]:1}" </dev/null 2>&1 || status=$?
        echo "${command[*]}: exit $status"
    done <<COMMANDS
seal bad-use/diary.txt bad-use/diary.plq
seal -m bad-use/metres.txt bad-use/diary.txt bad-use/with-metres.plq
seal -m bad-use/one-too-few.txt bad-use/diary.txt
seal bad-use/no-tree.txt
seal bad-use/no-numbers.txt
phone bad-use/diary.plq
phone bad-use/diary.plq 13
phone bad-use/diary.plq 53
phone bad-use/with-metres.plq 13
phone bad-use/with-metres.plq 53
phone bad-use/damaged.plq
phone bad-use/short.plq
watch
watch 5
exchange in bad-use/brackets.txt bad-use/exchanged.plq
exchange out bad-use/exchanged.plq bad-use/exchanged.txt
exchange out bad-use/with-metres.plq
exchange in bad-use/diary.txt
exchange in bad-use/cut-off.txt
exchange in bad-use/too-long.txt
exchange out bad-use/damaged.plq
exchange out bad-use/65-levels.plq
COMMANDS
}
example_runs "$bin" >bad-use/plain.txt
[ "$(grep -c ': exit 0$' bad-use/plain.txt)" = 9 ] || fail "bad use: of the examples' runs not just nine are done"

# Where the system puts programs at random over too wide a range, the sanitizers do not find their own place. The
# search for leaks takes seconds on some machines, and the library allocates nothing; valgrind, below, searches.
under_sanitizers=(env ASAN_OPTIONS=detect_leaks=0)
if setarch "$(uname -m)" -R true 2>/dev/null; then
    under_sanitizers=(setarch "$(uname -m)" -R "${under_sanitizers[@]}")
fi

works() { # WORD: can this machine's compiler make a program with it, and does an empty one start, every time?
    local run
    echo 'int main(void) { return 0; }' >bad-use/empty.c
    gcc "$1" bad-use/empty.c -o bad-use/empty 2>/dev/null || return 1
    for ((run = 1; run <= 10; run++)); do "${under_sanitizers[@]}" bad-use/empty 2>/dev/null || return 1; done
}

sanitized() { # SOURCE PROGRAM [WORDS..]
    compile "$1" "$2" -O1 -g -fsanitize=address,undefined -fno-sanitize-recover=all "${@:3}"
}

if works -fsanitize=address,undefined; then
    mkdir bad-use/sanitized
    sanitized "$root/tests/bad_use.c" bad-use/sanitized/bad_use
    sanitized "$root/tests/threads.c" bad-use/sanitized/threads -pthread
    for name in header order; do sanitized "$root/tests/$name.c" "bad-use/sanitized/$name"; done
    for name in seal phone watch exchange; do sanitized "$root/examples/$name.c" "bad-use/sanitized/$name"; done
    "${under_sanitizers[@]}" bad-use/sanitized/bad_use
    "${under_sanitizers[@]}" bad-use/sanitized/threads 40
    for name in header order; do "${under_sanitizers[@]}" "bad-use/sanitized/$name"; done
    passed "sanitizers of addresses and of undefined behaviour: bad use, threads, the header, the order of parameters"
    example_runs bad-use/sanitized "${under_sanitizers[@]}" >bad-use/sanitized.txt
    same "the examples under the sanitizers" bad-use/plain.txt bad-use/sanitized.txt
    passed "sanitizers: the examples on good and bad input say what they say without"
else
    echo "not tried, since the sanitizers do not link or start here: bad use, threads and the examples under them"
fi

if works -fsanitize=thread; then
    compile "$root/tests/threads.c" bad-use/threads-watched -O1 -g -fsanitize=thread -pthread
    "${under_sanitizers[@]}" bad-use/threads-watched 30
    passed "sanitizer of threads: the same sixteen threads"
else
    echo "not tried, since the sanitizer of threads does not link or start here: threads under it"
fi

# The sanitizers do not see what the archive itself reads and writes; valgrind does.
if command -v valgrind >/dev/null; then
    under_valgrind=(valgrind --error-exitcode=99 --leak-check=full "--errors-for-leak-kinds=definite,possible" --quiet)
    "${under_valgrind[@]}" bad-use/bad_use few
    "${under_valgrind[@]}" bad-use/order
    passed "valgrind: bad use, and the order of parameters"
    example_runs "$bin" "${under_valgrind[@]}" >bad-use/valgrind.txt
    same "the examples under valgrind" bad-use/plain.txt bad-use/valgrind.txt
    passed "valgrind: the examples on good and bad input say what they say without"
else
    echo "not tried, since there is no valgrind: bad use and the examples under it"
fi
