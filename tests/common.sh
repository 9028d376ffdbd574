# Read by the tests of the archive, from the repository's top folder.

wants() { # COMMAND PACKAGE
    if ! command -v "$1" >/dev/null; then
        echo "$1 is missing: install the Debian package $2" >&2
        exit 1
    fi
}

# How C programs are built: warnings as errors, and address and undefined-behaviour checks where they are asked for.
warnings="-Wall -Wextra -Wpedantic -Werror"
checks="-g -fsanitize=address,undefined -fno-sanitize-recover=all"

# Ends with status 9 where the program, the archive in it included, touches memory that it was not given, or does not give it back.
under_valgrind="valgrind -q --error-exitcode=9 --leak-check=full"

# Made anew where it is missing or older than the code.
archive=target/staticlib/libscale.a
if [ ! -f $archive ] || [ -n "$(find crates crates.txt -name out -prune -o -type f -newer $archive -print | head -n 1)" ]; then
    tools/prove archive scale >&2
fi
