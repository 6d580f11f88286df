# The lines of C and Rust in README.md and docs/INTEGRATE.md, as pasted.

block_of() { # DOCUMENT NAME: makes NAME of the fenced block after the line <!-- tried: NAME -->
    awk -v marker="<!-- tried: $2 -->" '
        $0 == marker { marked = 1; next }
        marked && /^```/ { if (inside) exit; inside = 1; next }
        inside { print; some = 1 }
        END { exit !some }' "$root/$1" >"$2" || fail "$1 has no block after <!-- tried: $2 -->"
}

prints() { # DOCUMENT NAME OUTPUT: the program NAME.c of the document prints what its block OUTPUT has
    block_of "$1" "$2.c"
    block_of "$1" "$3"
    compile "$2.c" "$2-c"
    "./$2-c" >"$2-c.out"
    same "$1, $2.c" "$3" "$2-c.out"
    passed "$1, $2.c, as pasted"
}

prints README.md ten ten.out
prints docs/INTEGRATE.md nested nested.out
prints docs/INTEGRATE.md one_file one_file.out
prints docs/INTEGRATE.md place place.out
prints docs/INTEGRATE.md text text.out

block_of README.md ten.rs
mkdir -p ten-rs/src
cp ten.rs ten-rs/src/main.rs
cat >ten-rs/Cargo.toml <<MANIFEST
[package]
name = "ten"
version = "0.1.0"
edition = "2021"

[dependencies]
parlaqen = { path = "$root/bindings/rust" }

[workspace]
MANIFEST
(cd ten-rs && cargo run --quiet --offline) >ten-rs.out
same "README.md, ten.rs" ten.out ten-rs.out
passed "README.md, ten.rs, as pasted"

# every block that a document marks as tried is tried here
for document in README.md docs/INTEGRATE.md; do
    for name in $(sed -n 's/^<!-- tried: \(.*\) -->$/\1/p' "$root/$document"); do
        [ -f "$name" ] || fail "$document: $name is marked as tried and is not"
    done
done
