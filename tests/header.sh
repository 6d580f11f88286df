# The header: it compiles by itself, what it adds agrees with the library, and what is easily done wrong is refused.

strict=(-Wall -Wextra -Werror -pedantic -Wconversion -Wsign-conversion -Wshadow -Wcast-qual -Wundef)
echo '#include <parlaqen.h>' >alone.c
for standard in c99 c11 c17; do
    gcc -std=$standard "${strict[@]}" -Wstrict-prototypes -Wc++-compat -I"$root/include" -fsyntax-only alone.c
done
passed "the header alone, as C of 1999, 2011 and 2017, without a warning"
cat >in-cpp.cpp <<'IN_CPP'
#include <parlaqen.h>
enum { ROOM = 100 };
constexpr size_t bits = PLQ_STRING_BITS(ROOM);
static_assert(PLQ_IMAGE_BYTES(PLQ_MOST_NODES, PLQ_MOST_NODES) == PLQ_MOST_TREE_IMAGE_BYTES, "without metres");
static_assert(PLQ_IMAGE_ROOM(PLQ_MOST_NODES) + PLQ_METRES_BYTES(PLQ_MOST_NODES) == PLQ_MOST_IMAGE_BYTES, "the largest");
static_assert(PLQ_BYTES_OF_BITS(bits) == PLQ_STRING_BYTES(ROOM) && PLQ_LISTING_NUMBERS(ROOM + 1) == 202, "sizes");
static_assert(PLQ_TEXT_BYTES(PLQ_MOST_NODES) < PLQ_MOST_TEXT, "every text without blanks is short enough");
uint8_t image[PLQ_IMAGE_ROOM(ROOM)];
uint32_t first_child(int32_t node);
uint32_t first_child(int32_t node)
{
    const plq_question question = {PLQ_FIRST_CHILD, node, 0};
    uint32_t child = 0;
    return plq_ask_questions(image, plq_image_bytes(image), &question, 1, &child, 1).code == PLQ_DONE ? child : 0;
}
IN_CPP
if command -v g++ >/dev/null; then
    for standard in c++11 c++17 c++20; do
        g++ -std=$standard "${strict[@]}" -Wold-style-cast -I"$root/include" -fsyntax-only in-cpp.cpp
    done
    passed "the header in C++ of 2011, 2017 and 2020, its sizes as constants, without a warning"
else
    echo "not tried, since there is no g++: the header in C++"
fi

# Its macros and inline functions beside what the library takes and gives.
compile "$root/tests/header.c" header
./header
passed "header: its sizes are those of the library, for trees of 1 to 65,535 nodes; its questions, texts and version"

fault_is_seen() { # WHAT SED-COMMAND: with the header so changed an assertion of tests/header.c fails, or its run
    mkdir -p with-a-fault
    sed "$2" "$root/include/parlaqen.h" >with-a-fault/parlaqen.h
    if cmp -s "$root/include/parlaqen.h" with-a-fault/parlaqen.h; then fail "header: '$2' changes nothing in it"; fi
    if gcc -std=c11 -w -Iwith-a-fault "$root/tests/header.c" "$archive" -o with-fault 2>with-fault.txt; then
        if ./with-fault >with-fault.txt 2>&1; then fail "header: no run sees $1"; fi
    else
        grep -q 'static assertion failed' with-fault.txt || fail "header: $1 is no header that compiles"
    fi
}
fault_is_seen "an image without a block for R0's last bit" '/PLQ_SHARES_(PLQ_SIZE_(n) + 1, 4000)/s/ + 1, 4000/, 4000/'
fault_is_seen "an image of other shares" 's/PLQ_SHARES_(n, 4000)/PLQ_SHARES_(n, 4001)/'
fault_is_seen "samples of each 65th one" 's/PLQ_SHARES_(m, 64)/PLQ_SHARES_(m, 65)/'
fault_is_seen "127 samples to a block" 's/, 64), 126)/, 64), 127)/'
fault_is_seen "one list of samples" 's/2 \* PLQ_SHARES_(PLQ_SHARES_(m/1 * PLQ_SHARES_(PLQ_SHARES_(m/'
fault_is_seen "an image without its header" 's/(PLQ_BLOCK_BYTES \* (1 + PLQ/(PLQ_BLOCK_BYTES * (0 + PLQ/'
fault_is_seen "room for the least image" '/PLQ_IMAGE_ROOM(n) PLQ/s/BYTES(n, n)/BYTES(n, 1)/'
fault_is_seen "127 metres to a block" '/define PLQ_METRES_BYTES/s/126/127/'
fault_is_seen "metres without their sums" '/define PLQ_METRES_BYTES/s/PLQ_BLOCK_BYTES/504/'
fault_is_seen "a limit without metres" 's/PLQ_MOST_IMAGE_BYTES = 293888/PLQ_MOST_IMAGE_BYTES = 27136/'
fault_is_seen "another kind for metres" 's/PLQ_METRES = 11/PLQ_METRES = 12/'
fault_is_seen "a string without its last zero" 's/(2 \* PLQ_SIZE_(n) + 1)/(2 * PLQ_SIZE_(n))/'
fault_is_seen "bytes rounded down" 's/ + (PLQ_SIZE_(all) % (share) != 0)//'
fault_is_seen "bytes rounded up by an addition that wraps" \
    's|(PLQ_SIZE_(all) / (share) + (PLQ_SIZE_(all) % (share) != 0))|((PLQ_SIZE_(all) + (share) - 1) / (share))|'
fault_is_seen "a listing of nodes without depths" 's/PLQ_LISTING_NUMBERS(n) (2 \*/PLQ_LISTING_NUMBERS(n) (1 */'
fault_is_seen "a text of one byte a node" 's/PLQ_TEXT_BYTES(n) (2 \*/PLQ_TEXT_BYTES(n) (1 */'
fault_is_seen "a text with a 0 after it" '/define PLQ_TEXT_BYTES/s/PLQ_SIZE_(n)/PLQ_SIZE_(n) + 1/'
fault_is_seen "a shorter text" 's/PLQ_MOST_TEXT = 1048576/PLQ_MOST_TEXT = 1048575/'
fault_is_seen "a longer text" 's/PLQ_MOST_TEXT = 1048576/PLQ_MOST_TEXT = 1048577/'
fault_is_seen "the codes of a text exchanged" 's/PLQ_NOT_TEXT = 16/PLQ_NOT_TEXT = 17/;s/_NESTED = 17/_NESTED = 16/'
fault_is_seen "the number of blocks from one byte" 's/int byte = 15; byte >= 12/int byte = 12; byte >= 12/'
fault_is_seen "the number of blocks with its high byte first" 's/blocks + image\[byte\]/blocks + image[27 - byte]/'
fault_is_seen "numbers in the place of questions" 's/numbers, 3 \* counted, answers/numbers, counted, answers/'
fault_is_seen "two codes with one text" 's/case PLQ_NO_ROOM: return "[^"]*"/case PLQ_NO_ROOM: return "done"/'
fault_is_seen "a code without a text" '/case PLQ_LEFTOVER_SET: return/d'
fault_is_seen "a text for the number that is retired" '/case PLQ_NO_ROOM: return/s/case/case 7: return "7"; &/'
fault_is_seen "a version string of another version" 's/PLQ_VERSION_STRING "[0-9]*/&9/'
passed "header: 27 faults in its macros and functions are seen"

# An answer that nobody looks at.
does_not_compile() { # MESSAGE LINE: with LINE in a function a program does not compile, and the compiler says MESSAGE
    printf '#include <parlaqen.h>\nvoid use(uint8_t *image, uint32_t *list) { %s }\n' "$2" >misuse.c
    if gcc -std=c11 -Wall -Werror -I"$root/include" -c misuse.c -o misuse.o 2>misuse.txt; then
        fail "header: this compiles: $2"
    fi
    grep -q "$1" misuse.txt || fail "header: not refused for '$1': $2"
}
for line in 'plq_string_of_parents(list, 1, image, 1);' 'plq_parents_of_string(image, 1, 3, list, 1);' \
    'plq_image_of_parents(list, 1, image, 2560);' 'plq_image_with_metres(list, 1, list, 1, image, 3072);' \
    'plq_parents_of_image(image, 2560, list, 1);' 'plq_metres_of_image(image, 3072, list, 1);' \
    'plq_check_image(image, 2560);' 'plq_ask(image, 2560, 0, 0, list, 0);' \
    'plq_split(image, 0, 0, 0, list, 0, list, 0);' 'plq_join(image, 1, 0, 0, list, 1);' \
    'plq_list(image, 2560, 1, list, 2);' 'plq_parents_of_text(image, 2, list, 1);' \
    'plq_text_of_parents(list, 1, image, 2);' 'plq_ask_questions(image, 2560, 0, 0, list, 0);' \
    'plq_image_bytes(image);' 'plq_code_text(1);'; do
    does_not_compile "unused-result" "$line"
done
does_not_compile "incompatible-pointer-types" \
    'plq_question q = {PLQ_PARENT, 1, 0}; if (plq_ask(image, 2560, &q, 1, list, 1).code) return;'
passed "header: the compiler warns of an answer that nobody looks at, for each function, and of questions as numbers"

# Header and crate compile only where a size has 64 bits. The same commands do compile them where it has.
refused_for_size() { # MACHINE COMMAND..: compiling for MACHINE ends with the sentence on sizes, and with no other error
    local machine=$1 errors
    local sentence="parlaqen: a size must have 64 bits, as in the library; else a call would answer 'done' and do nothing"
    shift
    if "$@" 2>sizes.txt; then fail "sizes: compiled for $machine, where a size has 32 bits"; fi
    errors=$(grep 'error\(\[.*\]\)\?: ' sizes.txt | grep -v '^error: aborting') || true
    [[ $errors == *"$sentence"* && $errors != *$'\n'* ]] || {
        cat sizes.txt
        fail "sizes: for $machine refused, but not by the sentence on sizes alone"
    }
}

# the compiler of the Rattle toolchain knows other machines than this one; gcc's own folder has the two headers, without
# a C library
for_machine=("$(dirname "$(rt doc)")/toolchain/bin/clang" -ffreestanding -nostdinc
    -isystem "$(gcc -print-file-name=include)" -I"$root/include" -std=c11 -Wall -Wextra -Werror -fsyntax-only alone.c)
for machine in x86_64-linux-gnu aarch64-linux-gnu riscv64-linux-gnu; do "${for_machine[@]}" --target=$machine; done
for machine in i686-linux-gnu x86_64-linux-gnux32 arm-linux-gnueabi riscv32-linux-gnu; do
    refused_for_size $machine "${for_machine[@]}" --target=$machine
done
if gcc -m32 -x c -fsyntax-only /dev/null 2>/dev/null; then
    refused_for_size "gcc -m32" gcc -m32 -ffreestanding -I"$root/include" -fsyntax-only alone.c
fi
passed "sizes: the header compiles for machines of 64 bits, and is refused for those of 32 with the reason"

# the lines of the crate that say so, without Rust's library, which is seldom installed for a machine of 32 bits
cat >sizes.rs <<'WITHOUT_LIBRARY'
#![feature(no_core, rustc_attrs)]
#![allow(internal_features, unused_macros)]
#![no_core]
#[rustc_builtin_macro]
macro_rules! compile_error { ($message:expr) => {}; }
WITHOUT_LIBRARY
sed -n '/^#\[cfg(not(target_pointer_width = "64"))\]$/,/;$/p' "$root/bindings/rust/src/lib.rs" >>sizes.rs
for_machine=(env RUSTC_BOOTSTRAP=1 rustc --crate-type lib --emit metadata sizes.rs)
for machine in x86_64 aarch64; do "${for_machine[@]}" --target $machine-unknown-linux-gnu; done
refused_for_size i686 "${for_machine[@]}" --target i686-unknown-linux-gnu
passed "sizes: the Rust crate, the same"
