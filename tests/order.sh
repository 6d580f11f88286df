# The archive: its names, what it needs of C, and that parameters and fields have the order which the header declares.

declared=$(sed -n 's/^PLQ_MUST_USE plq_answer \(plq_[a-z_]*\)(.*/\1/p' "$root/include/parlaqen.h" | sort)
exported=$(nm -g --defined-only "$archive" | awk 'NF == 3 { print $3 }' | sort)
[ "$declared" = "$exported" ] || fail "the archive has $exported, and the header declares $declared"
passed "the archive has the $(wc -l <<<"$declared") calls that the header declares, and no other name"
needed=$(nm -u "$archive" | awk '$1 == "U" && $2 !~ /^mem(set|cpy|move|cmp)$/ { print $2 }')
[ -z "$needed" ] || fail "the archive needs more than memset, memcpy, memmove and memcmp of C: $needed"
passed "the archive needs nothing but memset, memcpy, memmove and memcmp of C"

# Every way to exchange two parameters of a call, one to a line, as a macro: it writes the two the other way round
# wherever the call is, in the header and in the program that goes by it. Below a letter is a parameter in C, a word is
# one in the library, where a pointer and its length are one list.
exchanges() {
    awk '
        function in_order(part, parts, i, j,   k, all) { # the letters, with parts i and j exchanged
            for (k = 1; k <= parts; k++) all = all part[k == i ? j : k == j ? i : k]
            gsub(/./, "&,", all)
            return "(" substr(all, 1, length(all) - 1) ")"
        }
        {
            letters = 0
            for (i = 2; i <= NF; i++) {
                list[i - 1] = $i
                for (j = 1; j <= length($i); j++) letter[++letters] = substr($i, j, 1)
            }
            as_it_is = $1 in_order(letter, letters, 0, 0) "=" $1
            for (i = 1; i < letters; i++)
                for (j = i + 1; j <= letters; j++) print as_it_is in_order(letter, letters, i, j)
            for (i = 1; i < NF - 1; i++)
                for (j = i + 1; j < NF; j++)
                    if (length(list[i] list[j]) > 2) print as_it_is in_order(list, NF - 1, i, j)
        }' <<CALLS
plq_string_of_parents ab cd
plq_parents_of_string ab c de
plq_image_of_parents ab cd
plq_image_with_metres ab cd ef
plq_parents_of_image ab cd
plq_metres_of_image ab cd
plq_check_image ab
plq_ask ab cd ef
plq_split ab c d ef gh
plq_join ab c d ef
plq_list ab c de
plq_parents_of_text ab cd
plq_text_of_parents ab cd
CALLS
}

exchange_is_seen() { # EXCHANGE WORDS..: tests/order.c, compiled with these words too, compiles, and its run fails
    local exchange=$1
    shift
    gcc -std=c11 -w "$@" -I"$root/include" "$root/tests/order.c" "$archive" -o exchanged
    # a run may well end by a signal, of which nothing needs to be said or kept
    if { (ulimit -c 0 && timeout 20 ./exchanged >/dev/null); } 2>/dev/null; then fail "order: no run sees $exchange"; fi
}

# The parameters of a call and the fields of its answer have the order in the header that they have in the library.
compile "$root/tests/order.c" order
./order
passed "order: the thirteen calls through the header, with lists and numbers that are all different"

count=0
exchanges >exchanges.txt
while read -r exchange; do
    # exchanged these say the same: the two rooms of a split must each be enough, and nothing else depends on them; the
    # numbers of parents and of metres must be one number
    case $exchange in
    "plq_split(a,b,c,d,e,f,g,h)=plq_split(a,b,c,d,e,h,g,f)") continue ;;
    "plq_image_with_metres(a,b,c,d,e,f)=plq_image_with_metres(a,d,c,b,e,f)") continue ;;
    esac
    exchange_is_seen "$exchange" -D"$exchange"
    count=$((count + 1))
done <exchanges.txt
mkdir with-fields-exchanged
for fields in "place, code, first, second" "first, place, code, second" "second, place, first, code" \
    "code, first, place, second" "code, second, first, place" "code, place, second, first"; do
    sed "s/uint32_t code, place, first, second;/uint32_t $fields;/" "$root/include/parlaqen.h" \
        >with-fields-exchanged/parlaqen.h
    exchange_is_seen "the fields of an answer as $fields" -Iwith-fields-exchanged
done
passed "order: $count ways to exchange two parameters of a call, and all 6 for two fields of the answer, are seen"
