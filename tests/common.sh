# Shared by the tests, and by examples/write; sourced in the root of the repository. Counts, compares, and builds the
# program that asks the library (tests/ask.c) and the command. The library is looked for in the folder ALGEBRA_LIB_DIR, or else in
# target/staticlib; the listing program is LISTING, or else target/bin/listing.
passed=0
failed=0
export ALGEBRA_LIB_DIR=${ALGEBRA_LIB_DIR:-$PWD/target/staticlib}
library=$ALGEBRA_LIB_DIR/libalgebra.a
listing=${LISTING:-$PWD/target/bin/listing}
room=$(mktemp -d)
trap 'rm -rf "$room"' EXIT

# Counts one test by its status.
count() {
    if [ "$2" -eq 0 ]; then
        passed=$((passed + 1))
    else
        failed=$((failed + 1))
        echo "FAILED: $1"
    fi
}

# Counts one test: two files are equal.
same() {
    cmp "$2" "$3"
    count "$1" $?
}

# Counts one test: two texts are equal.
equal() {
    [ "$2" = "$3" ]
    count "$1: $3 in place of $2" $?
}

# Builds the program that asks the library; without it there is nothing to test.
build_ask() {
    ask=$room/ask
    if ! gcc -std=c99 -O2 -Wall -Wextra -Wpedantic -Werror -Iinclude tests/ask.c "$library" -o "$ask"; then
        count 'tests/ask.c can be built' 1
        finish
        exit 1
    fi
}

# Builds the command; without it there is nothing to test.
build_command() {
    command=$PWD/target/release/algebra
    if ! cargo build --quiet --release --offline --package algebra-command; then
        count 'the command can be built' 1
        finish
        exit 1
    fi
}

# Says how many passed and failed, and gives the status.
finish() {
    echo "$passed passed, $failed failed"
    [ "$failed" -eq 0 ]
}
