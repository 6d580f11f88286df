# A kill of `seal` or `exchange`, at whatever moment, leaves the old diary or the new one, whole,
# and the lock free: in the container, or in the text.

awk 'BEGIN { print "0 1 2"; for (i = 4; i <= 9000; i++) print 3 }' >new-diary.txt
awk 'BEGIN { print "(\n  (\n    ("; for (i = 4; i <= 9000; i++) print "      ()"; print ")))" }' >new-brackets.txt
cp diary.plq old.plq
seal new-diary.txt new.plq
exchange in new-brackets.txt | cmp new.plq
exchange out old.plq old.txt
exchange out new.plq new.txt
if cmp -s old.plq new.plq; then fail "kills: the old diary and the new one are the same"; fi

container_after() { # WHAT: the container has the old diary or the new one, which phone shows; says which, or fails
    timeout 20 "$bin/phone" kept.plq >shown.txt 2>&1 || { echo "after $1: $(tail -n 1 shown.txt)" && return 1; }
    if cmp -s kept.plq old.plq; then echo old; elif cmp -s kept.plq new.plq; then echo new; else return 1; fi
}

text_after() { # WHAT: the text is the old one or the new one, and no writer waits for its lock; says which, or fails
    local found=torn
    if cmp -s kept.txt old.txt; then found=old; elif cmp -s kept.txt new.txt; then found=new; fi
    timeout 20 "$bin/exchange" out old.plq kept.txt || found=locked
    case $found in
    old | new) echo $found ;;
    *) echo "after $1: the text is $found" && return 1 ;;
    esac
}

# Kills a program at its first system call, at its second, and so on until it ends by itself: by then it was killed at
# every moment that others can tell apart, since files change by system calls alone. Prints what was found each time.
killed_everywhere() { # KIND PROGRAM [WORDS..]: KIND is what it replaces, a container (kept.plq) or a text (kept.txt)
    local stop=0 status=0
    while [ $status = 0 ]; do
        stop=$((stop + 1))
        cp old.plq kept.plq
        cp old.txt kept.txt
        ./kill_at $stop "${@:2}" || status=$?
        [ $status -le 1 ] || return $status
        "$1_after" "a kill at stop $stop" || return 1
    done
}

# Both are found, each at least once, and how often.
both_found() { # WHAT
    local old new
    old=$(grep -c '^old$' found.txt) && new=$(grep -c '^new$' found.txt) || fail "kills: one diary was never found"
    passed "kills: $1 at all $((old + new)) entries and ends of system calls: $old times the old one, $new the new one"
}

gcc -std=c11 -Wall -Wextra -Werror -O2 "$root/tests/kill_at.c" -o kill_at
status=0
killed_everywhere container "$bin/seal" new-diary.txt kept.plq >found.txt || status=$?
case $status in
0)
    both_found "seal"
    killed_everywhere container "$bin/exchange" in new-brackets.txt kept.plq >found.txt ||
        fail "kills: $(tail -n 1 found.txt)"
    both_found "exchange, text to image,"
    killed_everywhere text "$bin/exchange" out new.plq kept.txt >found.txt ||
        fail "kills: $(tail -n 1 found.txt)"
    both_found "exchange, image to text,"
    # programs that write the file itself, as the first one did: torn in between
    mkdir in-place
    cp "$root/examples/seal.c" "$root/examples/exchange.c" "$root/examples/refusal.h" in-place
    sed 's/(container, ".new", new_name)/(container, "", new_name)/' "$root/examples/container.h" >in-place/container.h
    if cmp -s "$root/examples/container.h" in-place/container.h; then fail "kills: no new file is taken away"; fi
    for name in seal exchange; do compile "in-place/$name.c" "$name-in-place"; done
    if killed_everywhere container ./seal-in-place new-diary.txt kept.plq >found.txt; then
        fail "kills: writing the container in place is not seen"
    fi
    passed "kills: a program that writes the container in place is seen: $(tail -n 1 found.txt)"
    if killed_everywhere text ./exchange-in-place out new.plq kept.txt >found.txt; then
        fail "kills: writing the text in place is not seen"
    fi
    passed "kills: a program that writes the text in place is seen: $(tail -n 1 found.txt)"
    ;;
3) echo "not tried, since no program may follow another one here: kills at every system call" ;;
*) fail "kills: $(tail -n 1 found.txt)" ;;
esac

# The same by the clock: the two diaries take turns, and each sealing is killed after some time, until 100 of them were
# killed before they had ended. Waiting is counting, since a program that sleeps takes longer to start than this one to
# seal.
RANDOM=7
cp old.plq kept.plq
killed=0
for ((turn = 1; killed < 100 && turn <= 3000; turn++)); do
    if ((turn % 2)); then text=new-diary.txt; else text=$root/examples/diary.txt; fi
    status=0
    "$bin/seal" "$text" kept.plq &
    for ((count = RANDOM % 4000; count > 0; count--)); do :; done
    kill -KILL $! 2>/dev/null || true
    wait $! 2>/dev/null || status=$?
    [ $status != 137 ] || killed=$((killed + 1))
    container_after "kill $turn by the clock" >>found-by-the-clock.txt || fail "kills: $(cat shown.txt)"
done
[ $killed = 100 ] || fail "kills: only $killed of $turn sealings were killed before they had ended"
old=$(grep -c '^old$' found-by-the-clock.txt) new=$(grep -c '^new$' found-by-the-clock.txt)
passed "kills: $killed by the clock, in $((old + new)) sealings: $old times the old diary, $new times the new one"
