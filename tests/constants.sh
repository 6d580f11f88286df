# The constants: no table is in the library's code, and its archive has just the constants of tests/constants.txt.
# The library's code is that of parlaqen_c, which exports the calls for C, and of every crate that it needs.
# Where other code has other ones, and none of them is a table, `tools/constants >tests/constants.txt` stores these.

code_of_library() { # FOLDER: the files of parlaqen_c and of every crate that it needs, by FOLDER/crates.txt, a line each
    awk -F: '
        { sub(/#.*/, "") }
        NF == 2 {
            sub(/ .*/, "", $1) # what may stand after the name says how it is built
            needs[$1] = $2
        }
        END {
            crate[crates = 1] = "parlaqen_c"
            for (i = 1; i <= crates; i++) {
                print crate[i]
                needed = split(needs[crate[i]], name, " ")
                for (j = 1; j <= needed; j++) if (!seen[name[j]]++) crate[++crates] = name[j]
            }
        }' "$1/crates.txt" | while read -r crate; do find "$1/crates/$crate/src" -type f; done | sort
}

tables_in() { # FILES..: each constant in them that is not one number, as FILE:LINE: NAME: TYPE
    awk '
        function search(   line, name) {
            line = 1
            while (match(text, /(^|[^A-Za-z0-9_\047])(const|static)[ \n]+(mut[ \n]+)?[A-Za-z0-9_]+[ \n]*:[ \n]*/)) {
                name = substr(text, 1, RSTART + RLENGTH - 1)
                text = substr(text, RSTART + RLENGTH)
                line += gsub(/\n/, " ", name)
                if (text ~ /^([iu](8|16|32|64|size)|f32|f64|bool)[^A-Za-z0-9_]/) continue
                sub(/ *: *$/, "", name)
                sub(/.* /, "", name)
                print file ":" line ": " name ": " substr(text, 1, match(text, /[ \n]*(=|$)/) - 1)
            }
            text = ""
        }
        FNR == 1 { search() }
        { file = FILENAME; sub(/\/\/.*/, ""); text = text $0 "\n" }
        END { search() }' "$@"
}

code_of_library "$root" >code.txt
mapfile -t files <code.txt
tables=$(tables_in "${files[@]}")
[ -z "$tables" ] || fail "constants: the library is to have no table: ${tables//"$root/"/}"
passed "constants: in the library's ${#files[@]} files of code each one is a number"

# a library of three crates with tables in every form, and a program with one, which the library does not need: outside
# the checkout, where rt ci takes no second crates.txt and no code without a crate
away=$(mktemp -d)
mkdir -p "$away"/tables/crates/{lowest,between,parlaqen_c,program}/src
cat >"$away/tables/crates.txt" <<'CRATES'
# lowest, between: what the library needs
lowest:
between: lowest
# parlaqen_c, program: the library, and a program
parlaqen_c staticlib: between
program: between lowest
CRATES
echo 'const TABLE: [u8; 2] = [1, 2];' |
    tee "$away/tables/crates/program/src/main.rt" >"$away/tables/crates/between/src/lib.rt"
cat >"$away/tables/crates/lowest/src/lib.rt" <<'CODE'
// const TABLE: [u8; 2] is a comment
pub const NUMBER: u32 = 1;
const FLAG: bool = true;
const ROW: [u8; 2] = [1, 2];
pub const ROWS: [[u8; 2]; 2] = [
    [1, 2],
    [3, 4],
];
pub(crate) const BELOW:
    [usize; 2] = [1, 2];
type Row = [u8; 2];
const OF_A_TYPE: Row = [1, 2];
const BYTES: &[u8] = b"12";
fn first() -> u8 { const INSIDE: [u8; 1] = [1]; INSIDE[0] }
static mut WRITABLE: [i64; 1] = [1];
CODE
cat >tables-wanted.txt <<'TABLES'
tables/crates/between/src/lib.rt:1: TABLE: [u8; 2]
tables/crates/lowest/src/lib.rt:4: ROW: [u8; 2]
tables/crates/lowest/src/lib.rt:5: ROWS: [[u8; 2]; 2]
tables/crates/lowest/src/lib.rt:10: BELOW: [usize; 2]
tables/crates/lowest/src/lib.rt:12: OF_A_TYPE: Row
tables/crates/lowest/src/lib.rt:13: BYTES: &[u8]
tables/crates/lowest/src/lib.rt:14: INSIDE: [u8; 1]
tables/crates/lowest/src/lib.rt:15: WRITABLE: [i64; 1]
TABLES
(
    cd "$away" || exit 1
    mapfile -t files < <(code_of_library tables)
    tables_in "${files[@]}"
) >tables.txt
rm -r "$away"
diff -u tables-wanted.txt tables.txt || fail "constants: tables in code are not seen as they are"
passed "constants: tables of eight forms are seen in a library's code, and one of a program is let be"

status=0
"$root/tools/constants" "$archive" >constants.txt 2>why-not.txt || status=$?
if [ "$status" = 3 ]; then
    echo "not tried: the constants of the archive ($(cat why-not.txt))"
    return
fi
[ "$status" = 0 ] || fail "constants: $(cat why-not.txt)"
same "constants" "$root/tests/constants.txt" constants.txt
read -r count sum < <(sed -n 's/^sum of \([0-9]*\) constants: \([0-9]*\) bytes$/\1 \2/p' constants.txt)
passed "constants: the archive has the $count that are stored"

# with the two tables 208 bytes: 48 were parts of PLACE, and FALLS was in the instructions that put it together
most=160
[ "$sum" -le $most ] || fail "constants: $sum bytes, and not more than $most are to be there"
grep -qx '\.data and \.bss: 0 bytes' constants.txt || fail "constants: the archive has writable data"
passed "constants: $sum bytes, not more than $most, and no writable data"

# a copy of the archive with a table, with one that is put together from parts of 16 bytes, and with writable data
cat >table.c <<'TABLE'
static const unsigned char table[20] = {3, 1, 4, 1, 5, 9, 2, 6};
unsigned char look(unsigned char i) { return table[i % 20]; }
typedef unsigned char part __attribute__((vector_size(16)));
void put(part *p) { *p = (part){2, 7, 1, 8, 2, 8, 1, 8}; }
unsigned set = 1, unset;
TABLE
gcc -O2 -c table.c
cp "$archive" with-table.a
ar q with-table.a table.o
"$root/tools/constants" with-table.a >with-table.txt
cat >added-wanted.txt <<ADDED
.rodata 20 0301040105090206000000000000000000000000 look
.rodata.cst16 16 02070108020801080000000000000000 put
sum of $((count + 2)) constants: $((sum + 20 + 16)) bytes
.data and .bss: 8 bytes
ADDED
grep -vxFf constants.txt with-table.txt >added.txt
diff -u added-wanted.txt added.txt || fail "constants: what is added to an archive is not seen as it is"
passed "constants: a table, one put together from parts of 16 bytes, and writable data are seen in an archive"
