# The examples: what they print of good input and of bad, and how long they hold the lock.

for name in seal phone watch exchange; do
    compile "$root/examples/$name.c" strict -Wconversion -Wshadow -Wcast-qual -Wwrite-strings -pedantic
done
passed "the examples compile without a warning"

cp "$root/examples/diary.txt" "$root/examples/metres.txt" "$root/examples/brackets.txt" .
cmp "$expected/diary.plq" diary.plq
seal <diary.txt | cmp "$expected/diary.plq"
seal -m metres.txt diary.txt with-metres.plq
cmp "$expected/diary-with-metres.plq" with-metres.plq
seal -m metres.txt <diary.txt | cmp "$expected/diary-with-metres.plq"
passed "seal: the image of the example diary, without metres and with them, byte for byte"

seal diary.txt private.plq
chmod 640 private.plq
seal -m metres.txt diary.txt private.plq
[ "$(stat -c %a private.plq)" = 640 ] || fail "seal: a new diary has other permissions than the old one"
passed "seal: a new diary has the permissions of the old one"

phone diary.plq 13 >phone.txt
same "phone" "$expected/phone.txt" phone.txt
phone with-metres.plq 13 >phone-with-metres.txt
same "phone, with metres" "$expected/phone-with-metres.txt" phone-with-metres.txt
sed 's/, metres [0-9]*$//; /^  metres: [0-9]*$/d' phone-with-metres.txt | cmp phone.txt
passed "phone: seasons, weeks, and all kinds of questions; metres where there are some, and no word of them elsewhere"

phone diary.plq 1 >phone-root.txt
same "phone, the root" "$expected/phone-root.txt" phone-root.txt
phone with-metres.plq 1 | sed 's/, metres [0-9]*$//; /^  metres: [0-9]*$/d' | cmp "$expected/phone-root.txt"
passed "phone: the root has no rank and is an only child, without metres and with them"

watch >watch.txt
same "watch" "$expected/watch.txt" watch.txt
for ((bit = 1; bit <= 27; bit++)); do
    if watch "$bit" >changed.txt 2>&1; then fail "watch: changed bit $bit went unnoticed"; fi
    grep -q '^splitting: refused ' changed.txt || fail "watch: changed bit $bit: $(cat changed.txt)"
done
passed "watch: joined, split and read back; each changed bit refused"

exchange in brackets.txt exchanged.plq
cmp "$expected/diary.plq" exchanged.plq
exchange in <brackets.txt | cmp "$expected/diary.plq"
sed 's/$/\r/' brackets.txt | exchange in | cmp "$expected/diary.plq"
exchange out exchanged.plq exchanged.txt
cmp "$expected/brackets.txt" exchanged.txt
tr -d ' \n\r' <brackets.txt | cmp exchanged.txt
for image in diary.plq with-metres.plq; do exchange out $image | cmp "$expected/brackets.txt"; done
exchange in exchanged.txt exchanged-again.plq
cmp "$expected/diary.plq" exchanged-again.plq
passed "exchange: the example diary from text to the image of its parents, and from images to text without blanks"

chmod 640 exchanged.plq exchanged.txt
exchange in brackets.txt exchanged.plq
exchange out exchanged.plq exchanged.txt
permissions=$(stat -c %a exchanged.plq exchanged.txt)
[ "$permissions" = $'640\n640' ] || fail "exchange: a new file has other permissions than the old one"
for ((bytes = 0; bytes < 104; bytes++)); do
    place=$((bytes + 1))
    if head -c $bytes exchanged.txt | exchange in >cut.plq 2>cut.txt; then fail "exchange: $bytes bytes are taken"; fi
    grep -q "^standard input: line 1, column $place: refused 16 $place: " cut.txt || fail "exchange: $(cat cut.txt)"
    [ ! -s cut.plq ] || fail "exchange: something was sealed of what was cut off"
done
passed "exchange: permissions stay; a text that was cut off, after whichever byte, is refused there"

# Runs each command of the stored transcript again: the command, what it says, how it ends.
: >empty.plq
mkdir folder
head -c 2559 diary.plq >short.plq
head -c 2048 diary.plq >four-blocks.plq
cat diary.plq diary.txt >longer.plq
head -c 2560 /dev/zero >zeros.plq
head -c 293888 /dev/zero >574-blocks.plq
head -c 294400 /dev/zero >575-blocks.plq
head -c 10000000 /dev/zero >huge.plq
for block in 0 1 2 3 4; do
    cp diary.plq "damaged-$block.plq"
    printf '\377' | dd of="damaged-$block.plq" bs=1 seek=$((512 * block + 300)) conv=notrunc status=none
done
seq 0 64 | seal >path-of-65.plq
seq 0 65 | seal >path-of-66.plq
seq 51 >51-metres.txt
seq 53 >53-metres.txt
seq 65 >65-metres.txt
seq 0 65534 >longest-path.txt
awk 'BEGIN { print 0; for (i = 2; i <= 65535; i++) print 1 }' >65535-nodes.txt
awk 'BEGIN { print 0; for (i = 2; i <= 65536; i++) print 1 }' >65536-nodes.txt
awk 'BEGIN { print 0; for (i = 2; i <= 999999; i++) print 1 }' >999999-nodes.txt
# the sums of every block are right, but the header is lost, the end is lost, or one block is from another image
mix() { # IMAGE BLOCK OTHER MIXED: MIXED is IMAGE, with this block as it is in OTHER
    cp "$1" "$4"
    dd if="$3" of="$4" bs=512 skip="$2" seek="$2" count=1 conv=notrunc status=none
}
mix diary.plq 0 zeros.plq lost-header.plq
seal 65535-nodes.txt 65535-nodes.plq
head -c 5120 65535-nodes.plq >ten-blocks.plq
mix diary.plq 1 path-of-65.plq mixed-strings.plq
mix diary.plq 3 path-of-65.plq mixed-counts.plq # with two samples, and the diary has one
mix path-of-65.plq 4 path-of-66.plq mixed-samples.plq
head -c 2560 with-metres.plq >lost-metres.plq
mix with-metres.plq 0 diary.plq metres-of-version-1.plq
# texts of as many levels, nodes and bytes as there may be, or one more
levels() { # LEVELS [BETWEEN]: a path of so many levels, with BETWEEN on the last one
    awk -v levels="$1" -v between="${2-}" 'BEGIN {
        for (i = 1; i <= levels; i++) printf "("
        printf "%s", between
        for (i = 1; i <= levels; i++) printf ")"
    }'
}
bush() { # NODES: a root with all other nodes below it
    awk -v nodes="$1" 'BEGIN { printf "("; for (i = 2; i <= nodes; i++) printf "()"; printf ")" }'
}
levels 64 >64-levels.txt
levels 65 >65-levels.txt
levels 64 x >64-levels-and-x.txt
levels 65 x >65-levels-and-x.txt
(printf '\n \r\n' && levels 65) >65-levels-later.txt
bush 65535 >65535-brackets.txt
bush 65536 >65536-brackets.txt
(bush 65536 && printf ')') >65536-brackets-and-one.txt
(bush 65535 && head -c 917506 /dev/zero | tr '\0' '\n') >longest-text.txt
(cat longest-text.txt && printf '\n') >longer-text.txt
sed '7s/)/]/' brackets.txt >square.txt
sed '13s/(/\t(/' brackets.txt >tab.txt
(cat brackets.txt && echo '()') >two-trees.txt
seq 0 64 | seal -m 65-metres.txt >path-of-65-with-metres.plq
mix with-metres.plq 5 path-of-65-with-metres.plq mixed-metres.plq # with 65 numbers, and the diary has 52

while read -r command; do
    echo "\$ $command"
    status=0
    eval "$command" 2>&1 || status=$?
    echo "exit $status"
done < <(sed -n 's/^\$ //p' "$expected/refusals.txt") >refusals.txt
same "refusals" "$expected/refusals.txt" refusals.txt
passed "refusals: $(grep -c '^\$' refusals.txt) commands with bad texts and containers, each message and exit status"

# The lock covers the copying and nothing else: the phone goes to sleep in the middle of a diary that no pipe can hold.
replaced_while_shown() { # PHONE SECONDS: within so many seconds the container is replaced while PHONE shows its diary
    local first status=0
    seal 65535-nodes.txt container.plq
    rm -f screen
    mkfifo screen
    "$1" container.plq >screen 2>/dev/null &
    exec 3<screen
    read -r first <&3
    [ "$first" = "a diary of 65535 nodes, 1 of them with others below" ] || fail "phone: began with '$first'"
    timeout "$2" "$bin/seal" diary.txt container.plq || status=$?
    exec 3<&-
    wait $! || true # its screen is gone, and it may end by that
    return $status
}
replaced_while_shown "$bin/phone" 20 || fail "phone: the container stays locked while the diary is shown"
cmp "$expected/diary.plq" container.plq
mkdir keeps-the-lock
cp "$root/examples/phone.c" "$root/examples/refusal.h" keeps-the-lock
awk '
    / copy_container\(/ { copying = 1 }
    !(copying && $0 == "    unlock_container(lock);") { print }
    /^}/ { copying = 0 }' "$root/examples/container.h" >keeps-the-lock/container.h
if cmp -s "$root/examples/container.h" keeps-the-lock/container.h; then fail "locks: copying does not unlock"; fi
compile keeps-the-lock/phone.c phone-that-keeps-the-lock
if replaced_while_shown ./phone-that-keeps-the-lock 1; then fail "locks: a phone that keeps the lock is not seen"; fi
passed "locks: the container is free while the phone shows its copy; a phone that keeps the lock is seen"

# two diaries of different lengths, one with metres, take turns in one container while it is read
awk 'BEGIN { print "0 1 2"; for (i = 4; i <= 9000; i++) print 3 }' >long-week.txt
(while [ ! -e enough ]; do seal -m long-week.txt long-week.txt container.plq && seal diary.txt container.plq; done) &
for ((reading = 1; reading <= 100; reading++)); do
    phone container.plq >reading.txt 2>&1 || { touch enough && fail "phone: a torn copy: $(cat reading.txt)"; }
done
touch enough
wait $!
passed "locks: 100 copies of a container while it was being replaced, all of them whole"
