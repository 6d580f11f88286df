# The library against the independent program: every answer and every byte of some 940,000 calls.

(cd "$root/against" && cargo test --release --offline --locked)
passed "the library against the independent program"
