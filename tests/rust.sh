# The Rust crate: its tests and examples, what it needs no archive for, and where it looks for one.

of_crate() { # WHAT COMMAND..: the command succeeds in the crate's folder; else what it said is shown
    local what=$1
    shift
    (cd "$root/bindings/rust" && "$@") >rust.txt 2>&1 || {
        cat rust.txt
        fail "the Rust crate: $what"
    }
}

for features in "" --no-default-features; do
    # shellcheck disable=SC2086 # no word or one
    of_crate "its tests $features" cargo test --quiet --offline --locked $features
    count=$(awk '/^test result: ok/ { n += $4 } END { print n }' rust.txt)
    passed "the Rust crate, ${features:-with alloc}: $count tests, those of its documentation and examples among them"
done

if cargo clippy --version >clippy.txt 2>&1; then
    for features in "" --no-default-features; do
        # shellcheck disable=SC2086
        of_crate "clippy $features" cargo clippy --quiet --offline --locked --all-targets $features -- -D warnings
    done
    of_crate "its layout" cargo fmt --check
    passed "the Rust crate: clippy and rustfmt have nothing to say"
else
    echo "not tried, since there is no clippy: the Rust crate's lints and layout"
fi

# without an archive: a folder that is not there, and a target folder of its own, so that nothing of the above is found
without_archive=(env PARLAQEN_LIB_DIR="$work/no-archive" CARGO_TARGET_DIR="$work/without-archive")
of_crate "cargo check without the archive" "${without_archive[@]}" cargo check --quiet --offline --locked
of_crate "cargo doc without the archive" "${without_archive[@]}" RUSTDOCFLAGS="-D warnings" \
    cargo doc --quiet --offline --locked --no-deps
of_crate "its coverage" "${without_archive[@]}" RUSTC_BOOTSTRAP=1 \
    cargo rustdoc --quiet --offline --locked -- -Z unstable-options --show-coverage
awk -F'|' '$2 ~ /^ Total / { all = $4 ~ /^ +100.0% $/ && $6 ~ /^ +100.0% $/ } END { exit !all }' rust.txt || {
    cat rust.txt
    fail "the Rust crate: a public item without a text or without an example"
}
passed "the Rust crate: cargo check and cargo doc without the archive; every public item has a text and an example"

# the archive of one target goes before that of all
machine=$(rustc -vV | sed -n 's/^host: //p')
for_machine=PARLAQEN_LIB_DIR_${machine//-/_}
linking=(CARGO_TARGET_DIR="$work/linked" cargo build --offline --locked --example watch)
of_crate "$for_machine" env PARLAQEN_LIB_DIR="$work/no-archive" "$for_machine=$root/target/lib" "${linking[@]}"
if (cd "$root/bindings/rust" &&
    env PARLAQEN_LIB_DIR="$root/target/lib" "$for_machine=$work/no-archive" "${linking[@]}") >rust.txt 2>&1; then
    fail "the Rust crate: linked without the archive that $for_machine names"
fi
grep -q "$work/no-archive/libparlaqen.a is not there" rust.txt || fail "the Rust crate: no word of what is missing"
passed "the Rust crate: the archive of $for_machine goes before that of PARLAQEN_LIB_DIR; a missing one is named"

for example in screen watch; do
    of_crate "its example $example" cargo run --quiet --offline --locked --example "$example"
done
passed "the Rust crate's examples run"
