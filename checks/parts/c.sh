# Runs the C tests with each compiler that is installed, and random texts.
with_make() { make -s -C c ARCHIVE="$archive" "$@"; }

check "C: tests, static and shared, under sanitizers and valgrind" with_make check BUILD="$work/c"
needs 'has valgrind && has_header valgrind/callgrind.h' "valgrind is not there, or its headers are not" \
    "C: twice the text takes at most 2.2 times the instructions, and a choice for 8 kB at most what growth.py says" with_make growth BUILD="$work/c"
needs 'has valgrind && has rustc' "there is no valgrind, or no rustc" \
    "Benchmarks: the figures are those that are counted" env LANGTAG_ARCHIVE="$work/lib/liblangtag_c.a" "$root/bench/run" --check
needs 'has clang && has clang++' "it is not there" \
    "C: the same by clang" with_make check CC=clang CXX=clang++ VALGRIND= BUILD="$work/clang"
check "C: forms, suggestions, distances, choices and refusals of each length to 4,200 bytes, and to 2 MB" with_make sweep BUILD="$work/c"
check "C: rows about $FUZZ_COUNT random texts, by a second implementation of the RFCs" \
    with_make fuzz COUNT="$FUZZ_COUNT" SEED="$FUZZ_SEED" BUILD="$work/c"

told_by_c() { "$work/c/test" --answer "$work/vectors/calls.txt"; }

# as_an_oracle ORACLE TOLD [QUESTIONS]: compares C's answers to questions about everything in the data, and to random questions, with those
# of an oracle, which asks them if no other program does.
as_an_oracle() {
    local questions=${3:-$1}
    { "$questions" each && "$questions" random 30000 "$FUZZ_SEED"; } >"$work/asked" || return 1
    told_by_c <"$work/asked" >"$2" || return 1
    "$1" rows --compare "$2" <"$work/asked"
}
registry_oracle=$root/data/registry/oracle.py likely=$root/data/likely
check "C: validity and canonical form of 50,000 tags, by a plain reading of the registry" as_an_oracle "$registry_oracle" "$work/answers_about_tags"
check "C: 100,000 rows of likely subtags and choices, by a plain reading of the data" \
    as_an_oracle "$likely/oracle.py" "$work/told_of_likely" "$likely/questions.py"
check "C: 48,000 rows of extensions and Unicode locale identifiers, by a plain reading of the data" \
    as_an_oracle "$root/data/unicode/oracle.py" "$work/told_of_unicode"

# Random rows, and a seventh of C's answers to the oracles' questions, with which the answers of Python and JavaScript are compared. Their
# calls refuse a list with a string that is not a tag, which some choices have.
for_wrappers() {
    python3 random_rows.py rows 1000 "$FUZZ_SEED" &&
        awk 'FNR % 7 == 0 && !/^(best|suitable) /' "$work"/answers_about_tags "$work"/told_of_likely "$work"/told_of_unicode
}
for_wrappers >"$work/answers"

# Compares the maximal forms of deprecated tags, by way of their locale forms, with those of Intl.
as_intl() {
    local version
    version=$(sed -n 's/^CLDR_VERSION = \([0-9]*\).*/\1/p' postgresql/cldr_version.mk)
    "$likely/questions.py" aliases >"$work/aliases" || return 1
    sed 's/^/locale-form | /' "$work/aliases" | told_by_c | sed 's/.* | /maximized | /' | told_by_c | sed 's/.* | //' >"$work/told_of_aliases" || return 1
    node "$likely/intl.mjs" "$work/told_of_aliases" "$version" <"$work/aliases"
}
needs 'has node' "there is no node" "C: the maximal forms of 2,600 deprecated tags, by Intl" as_intl
