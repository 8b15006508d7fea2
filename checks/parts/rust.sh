# Compares the Rust crate with the C library and with other crates, and uses it with serde and in a user's program. checks/rust runs
# its own tests.
CARGO_TARGET_DIR=$work/target
CARGO_TERM_COLOR=never
# The programs run only once or twice, so they are built without debug information and incremental results. All checks use one set
# of features, so that the crate is compiled only once.
CARGO_INCREMENTAL=0
CARGO_PROFILE_DEV_DEBUG=0
CARGO_PROFILE_TEST_DEBUG=0

lacks "Rust: everything" 'has cargo' "there is no cargo" && return 0

# Everything except serde and the other crates is built as on a machine without a registry of crates.
CARGO_HOME=$work/cargo-home
CARGO_NET_OFFLINE=true
rust_crate=$work/rust

# C has no call for extended languages that follow a wrong language, so the oracle of the registry has the answers.
with_extlangs() {
    cat "$work"/answers "$work"/answers_about_tags "$work"/told_of_likely "$work"/told_of_unicode >"$work/answers_for_rust" || return 1
    sed -nE 's/^canonical \| (\S+) \| .*/misplaced-extlang | \1/p' "$work/answers_about_tags" | "$registry_oracle" rows >>"$work/answers_for_rust"
}
check "Rust: answers about extended languages, by a plain reading of the registry" with_extlangs
check "Rust: C's 300,000 answers to random calls and to those of the oracles" \
    env LANGTAG_ANSWERS="$work/answers_for_rust" bash -c 'cd "$rust_crate" && cargo test -q --features oxilangtag --test rows as_c_answers -- --nocapture'
# Calls that allocate may refuse by their contracts. These rows show that none does, for strings and lists of each length.
check "Rust: the calls of C's rows of each length to 4,200 bytes, and to 2 MB" bash -c 'python3 c/sweep/sweep.py >"$work/sweep" &&
    cd "$rust_crate" && CARGO_PROFILE_TEST_OPT_LEVEL=1 LANGTAG_ANSWERS="$work/sweep" cargo test -q --features oxilangtag --test rows as_c_answers'
check "Rust: names of languages" bash -c 'cd "$rust_crate" && cargo test -q --features names,oxilangtag --test rows display_names && cargo test -q --features names,oxilangtag --doc names'
check "Rust: the names of oxilangtag" bash -c 'cd "$rust_crate" && cargo test -q --features oxilangtag --doc oxilangtag && cargo test -q --features oxilangtag --test all oxilangtag::'

needs 'ls -d "$registry"/oxilangtag-0.1.[36] "$registry/language-tags-0.3.2" >/dev/null 2>&1' "their sources are not in $registry" \
    "Rust: the tests of oxilangtag and language-tags, but for those that are named" "$rust_crate/peers/run"

# The manifest of a release, with serde from a folder of sources.
with_serde() {
    local folder=$work/with-serde
    mkdir "$folder" && cp -r "$rust_crate/src" "$rust_crate/tests" "$rust_crate/examples" "$folder" || return 1
    sed 's/^#: \?//' "$rust_crate/Cargo.toml" >"$folder/Cargo.toml" || return 1
    mkdir "$folder/.cargo" && printf '%s\n' '[source.crates-io]' 'replace-with = "folder"' '[source.folder]' "directory = \"$registry\"" >"$folder/.cargo/config.toml"
    export RUSTFLAGS=-Dwarnings
    cd "$folder" && cargo test -q --features serde,oxilangtag --test all serde:: || return 1
    cargo run -q --features serde,oxilangtag --example articles | diff - <(printf '%s\n' 'fr Vélo' 'zh-Hant 單車' \
        'invalid language tag `de_CH`: invalid character `_`: expected a letter, a digit or a hyphen at line 1 column 19')
}
needs 'ls "$registry"/serde-1.* "$registry"/serde_json-1.* >/dev/null 2>&1' \
    "serde and serde_json are not in $registry (in Debian: librust-serde-dev, librust-serde-json-dev)" \
    "Rust: tags as strings of serde" with_serde

program() {
    cargo new -q --vcs none tags && cd tags && cargo add -q --offline --path "$rust_crate" || return 1
    cp "$work/first/parts.rs" src/main.rs
    cargo run -q | diff - <(wanted)
}
check "Rust: a program of a user" program
