# The stack that each call takes: what is measured here, beside what docs/INTEGRATE.md claims.

# its rows are | `CALL` | NUMBER KiB | .. or | `CALL` | NUMBER bytes | ..
awk -F'|' '
    $2 ~ /^ *`plq_[a-z_]+` *$/ && $3 ~ /^ *[0-9][0-9,]* (KiB|bytes) *$/ {
        gsub(/[ `]/, "", $2)
        gsub(/,/, "", $3)
        split($3, claim, " ")
        print $2, claim[1] * (claim[2] == "KiB" ? 1024 : 1)
    }' "$root/docs/INTEGRATE.md" >stack-claims.txt
nm -g --defined-only "$archive" | awk '$2 == "T" { print $3 }' | sort >stack-calls.txt
cut -d' ' -f1 stack-claims.txt | sort >stack-claimed.txt
diff stack-calls.txt stack-claimed.txt || fail "stack: docs/INTEGRATE.md has not one claim for each call"

compile "$root/tests/stack.c" stack
mapfile -t claims < <(tr ' ' '\n' <stack-claims.txt)
./stack "${claims[@]}"
passed "stack: no call takes more than two thirds of what docs/INTEGRATE.md claims"
