# The outline program, which `rt ci` makes, and `rt run` in its folder: what it prints of good input and of bad.

outline_says() { # WHAT TEXT: of WHAT, which is on standard input, the program prints TEXT
    local text
    text=$("$root/tools/run-program" outline)
    [ "$text" = "$2" ] || fail "outline: of $1 it prints '$text', not '$2'"
}

"$root/tools/run-program" outline <diary.plq >outline.txt
same "outline" "$expected/outline.txt" outline.txt
seal -m "$root/examples/metres.txt" "$root/examples/diary.txt" with-metres.plq
"$root/tools/run-program" outline <with-metres.plq >outline-with-metres.txt
same "outline, with metres" "$expected/outline-with-metres.txt" outline-with-metres.txt
passed "outline: the example diary, without metres and with them"

star() { # NODES: the parents of a root with all other nodes below it
    awk -v nodes="$1" 'BEGIN { print 0; for (i = 2; i <= nodes; i++) print 1 }'
}
measured() { # NODES: metres for each node, of ten digits, which are the most
    awk -v nodes="$1" 'BEGIN { for (i = 1; i <= nodes; i++) printf "%.0f\n", 4294967296 - i }'
}
star_with_metres() { # NODES IMAGE
    measured "$1" >measured.txt
    star "$1" | seal -m measured.txt >"$2"
}
star 4000 | seal >4000-nodes.plq
star 4001 | seal >4001-nodes.plq
star_with_metres 4000 4000-nodes-with-metres.plq
star_with_metres 4001 4001-nodes-with-metres.plq
awk 'BEGIN { print "n 4000 m 2 blocks 6\n1 0 3999"; for (i = 2; i <= 4000; i++) print i, 1, 0 }' >4000-nodes.outline
(echo "n 4000 m 2 blocks 38" && tail -n +2 4000-nodes.outline | paste -d' ' - <(measured 4000)) >with-metres.outline
outline_says "4,000 nodes" "$(cat 4000-nodes.outline)" <4000-nodes.plq
outline_says "4,000 nodes with metres" "$(cat with-metres.outline)" <4000-nodes-with-metres.plq
outline_says "4,001 nodes" "n 4001 m 2 blocks 7" <4001-nodes.plq
outline_says "4,001 nodes with metres" "n 4001 m 2 blocks 39" <4001-nodes-with-metres.plq
passed "outline: a line for each of 4,000 nodes, with metres of ten digits too, none for 4,001"

# the largest image without metres, the largest that the program takes, and one byte or one block more
seq 0 65534 | seal >53-blocks.plq
[ "$(wc -c <53-blocks.plq)" = 27136 ] || fail "outline: a path of 65,535 nodes does not take 53 blocks"
star_with_metres 10962 96-blocks.plq
star_with_metres 10963 97-blocks.plq
[ "$(wc -c <96-blocks.plq)" = 49152 ] || fail "outline: a star of 10,962 nodes with metres does not take 96 blocks"
[ "$(wc -c <97-blocks.plq)" = 49664 ] || fail "outline: a star of 10,963 nodes with metres does not take 97 blocks"
head -c 49152 /dev/zero >96-blocks-of-zeros.plq
head -c 49153 /dev/zero >96-blocks-of-zeros-and-a-byte.plq
outline_says "53 blocks" "n 65535 m 65535 blocks 53" <53-blocks.plq
outline_says "96 blocks" "n 10962 m 2 blocks 96" <96-blocks.plq
(cat 96-blocks.plq && printf '\0') | outline_says "96 blocks and a byte" "refused 2 0"
phone 97-blocks.plq >/dev/null # the library takes it
outline_says "97 blocks" "refused 2 0" <97-blocks.plq
outline_says "96 blocks of zeros" "refused 6 1" <96-blocks-of-zeros.plq # of block 0 both sums are 0
outline_says "96 blocks of zeros and a byte" "refused 2 0" <96-blocks-of-zeros-and-a-byte.plq
head -c 10000000 /dev/zero >huge.plq
outline_says "10,000,000 zeros" "refused 2 0" <huge.plq
passed "outline: images of 53 and of 96 blocks, and nothing longer"

(head -c 1000 && sleep 0.2 && head -c 40000 && sleep 0.2 && cat) <96-blocks.plq |
    outline_says "96 blocks that come in pieces" "n 10962 m 2 blocks 96"
(cat 96-blocks.plq && sleep 0.2 && printf '\0') | outline_says "96 blocks and, later, a byte" "refused 2 0"
(cat 53-blocks.plq && printf '\0') | outline_says "53 blocks and a byte" "refused 2 0"
head -c 27135 53-blocks.plq | outline_says "53 blocks less a byte" "refused 2 0"
head -c 26624 53-blocks.plq | outline_says "52 blocks of 53" "refused 12 0"
head -c 48640 96-blocks.plq | outline_says "95 blocks of 96" "refused 12 0"
head -c 2560 with-metres.plq | outline_says "a diary with metres without its last block" "refused 12 0"
passed "outline: what comes in pieces, or ends too early"

# the sums of every block are right, but the header is lost, or some blocks are from another image
seq 0 64 | seal >65-nodes.plq
seq 0 65 | seal >66-nodes.plq
(head -c 512 /dev/zero && tail -c +513 diary.plq) | outline_says "a diary without its header" "refused 11 0"
(head -c 512 diary.plq && tail -c +513 65-nodes.plq) | outline_says "the header of another diary" "refused 13 1"
(head -c 1536 diary.plq && tail -c +1537 65-nodes.plq) | outline_says "two samples for one" "refused 14 3"
(head -c 2048 65-nodes.plq && tail -c +2049 66-nodes.plq) | outline_says "samples of another diary" "refused 15 4"
passed "outline: images that no tree gives, although their sums are right"

# a read that fails counts as the end of the input; a write that fails ends the program, and its status stays 0
outline_says "a folder" "refused 2 0" <.
outline_says "a file that is open only for writing" "refused 2 0" 0>write-only.txt
"$root/tools/run-program" outline <diary.plq >/dev/full
passed "outline: reads and writes that fail"
