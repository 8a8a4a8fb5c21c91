#!/usr/bin/env bash
# The gate, called by `make test`: sees that every must-fail edit applies and every public function has two, runs `rt ci`, which proves
# every crate, tries the must-fail edits, runs the programs and checks the layout of all that is proved, builds the library, runs the Rust
# tests and checks their layout.
# Its last line is 'N passed, M failed'; the exit status is 0 only where M is 0.
set -u
cd "$(dirname "$0")/.." || exit 1

passed=0
failed=0
logs=$(mktemp -d) || exit 1
trap 'rm -rf "$logs"' EXIT

# The tests take the library and the program that are proved here, not those that the caller's environment may name.
unset SORBRUDDER_LIB TREELIST

finish() {
    echo "$passed passed, $failed failed"
    [ "$failed" -eq 0 ] && [ "$passed" -gt 0 ]
    exit
}

# A check that is no test: it counts only where it fails.
step() {
    local name=$1
    shift
    if "$@"; then
        echo "gate: $name: ok"
    else
        failed=$((failed + 1))
        echo "gate: $name: FAILED"
    fi
}

for tool in rt cargo make; do
    if ! command -v "$tool" >/dev/null 2>&1; then
        echo "gate: '$tool' is not on the PATH; it is needed to run the tests"
        failed=$((failed + 1))
    fi
done
[ "$failed" -eq 0 ] || finish

# The proofs. The last line of `rt ci` has the count of crates and must-fail edits; its line `rt: ok` counts the edits that could not be
# applied, compiled or read, which fail nothing there and the gate here.
prove() {
    rt ci 2>&1 | tee "$logs/rt" | sed -E 's/^([0-9]+ passed, [0-9]+ failed)$/rt ci counts \1/'
    local status=${PIPESTATUS[0]}
    local last
    last=$(grep -E '^[0-9]+ passed, [0-9]+ failed$' "$logs/rt" | tail -n 1)
    if [ -z "$last" ]; then
        failed=$((failed + 1))
        echo "gate: the proofs did not run to their end"
        return
    fi
    local p f bad
    p=$(echo "$last" | cut -d' ' -f1)
    f=$(echo "$last" | cut -d' ' -f3)
    passed=$((passed + p))
    failed=$((failed + f))
    # A refused run never counts as clean.
    if [ "$f" -eq 0 ] && { [ "$status" -ne 0 ] || ! grep -q '^rt: ok; ' "$logs/rt"; }; then
        failed=$((failed + 1))
        echo "gate: rt ci did not say that all is well"
    fi
    bad=$(sed -nE 's/^rt: (ok; .*, ([0-9]+) bad|note: bad must-fail edits, .*: ([0-9]+)\.).*/\2\3/p' "$logs/rt" | sort -n | tail -n 1)
    if [ "${bad:-0}" -gt 0 ]; then
        failed=$((failed + bad))
        echo "gate: $bad must-fail edits are bad"
    fi
}

# The tests of one Rust crate: the numbers of its 'test result' lines.
rust_tests() {
    local crate=$1
    (cd "$crate" && cargo test --release --offline) 2>&1 | tee "$logs/rust"
    local status=${PIPESTATUS[0]}
    local p f
    p=$(awk '/^test result:/ { n += $4 } END { print n + 0 }' "$logs/rust")
    f=$(awk '/^test result:/ { n += $6 } END { print n + 0 }' "$logs/rust")
    passed=$((passed + p))
    failed=$((failed + f))
    if [ "$f" -eq 0 ] && { [ "$status" -ne 0 ] || [ "$p" -eq 0 ]; }; then
        failed=$((failed + 1))
        echo "gate: the tests of $crate did not run to their end"
    fi
}

# An edit that no longer applies is no wrong program, and those of edits/ are not tried here.
step "every must-fail edit applies" tools/edits-apply.sh
if command -v python3 >/dev/null; then
    step "every public function has two wrong programs" tools/wrong_programs.py
    step "the page of what must be believed is as it would be written" tools/believed.py --check
    step "no public name is declared twice but those that are known" tools/homonyms.py
    step "every name in the documents is one" tools/doc_names.py
    step "no answer stands in a proof that the check finds" tools/shrink.py --check
else
    echo "gate: there is no python3: wrong programs, what must be believed, homonyms, the documents' names and answers were not looked at"
fi

# What earlier runs left in out/, `rt ci` puts back, so that the libraries there need not be those that it proves.
after=--after-ci
[ -z "$(find crates -mindepth 2 -maxdepth 2 -name out -print -quit)" ] || after=

prove

# The library that the Rust crates link, and the programs that they run. Where it is not built, the host crate does not build either, and
# its tests count as failed.
step "the static library" tools/library.sh $after
step "the static library needs no other names from outside than it says" tools/outside_names.sh
step "the programs" tools/programs.sh --after-ci
step "the prebuilt library and programs are those that are proved here" tools/prebuilt.sh --check
for crate in oracle compare host; do
    rust_tests "$crate"
done

step "the pages in a browser" tools/browser.sh --if-there

source=${MOLANGX_SRC:-../shared/docs/src}
if [ ! -f "$source/src/compile/parse/mod.rs" ]; then
    echo "gate: the Rust source is not at hand ($source): the comparison with it was left out"
fi

for crate in oracle oracle/thiserror sys compare host; do
    step "layout of $crate" cargo fmt --manifest-path "$crate/Cargo.toml" --check
done
clippy=yes
cargo clippy --version >/dev/null 2>&1 || clippy=
for crate in sys host; do
    step "documentation of $crate" env RUSTDOCFLAGS="-D warnings" \
        cargo doc --manifest-path "$crate/Cargo.toml" --offline --no-deps --quiet
done
for crate in oracle sys compare host; do
    [ -z "$clippy" ] ||
        step "clippy on $crate" cargo clippy --manifest-path "$crate/Cargo.toml" --release --offline --all-targets --quiet -- -D warnings
done
[ -n "$clippy" ] || echo "gate: cargo has no clippy: it was left out"

finish
