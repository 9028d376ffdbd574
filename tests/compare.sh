# Read by the tests that hold a file to the one wanted. What is wanted is never empty.

compared=0
same() { # WHAT WANTED GOT
    if [ ! -s "$2" ] || ! diff "$2" "$3" >&2; then
        echo "$1: $2 is empty, or $3 differs from it" >&2
        exit 1
    fi
    compared=$((compared + 1))
}
