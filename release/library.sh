# Whether this system has the C library that the released executable wants. The launcher and tests/run ask before anything is run.

loader=/lib64/ld-linux-x86-64.so.2
least_library=2.34

# The version of the C library, by its loader, or by getconf where that is older than 2.33; nothing where neither tells.
library_version() {
    { "$loader" --version || getconf GNU_LIBC_VERSION; } 2>/dev/null </dev/null | sed -n '1s/^.*[ a-z]\([0-9][0-9]*\.[0-9][0-9]*\)[^0-9]*$/\1/p'
}

# Whether a version is at least another one, both as MAJOR.MINOR.
is_at_least() { [ "${1%%.*}" -gt "${2%%.*}" ] || { [ "${1%%.*}" -eq "${2%%.*}" ] && [ "${1#*.}" -ge "${2#*.}" ]; }; }

# What is wrong with the C library; nothing where it will do, or where its version cannot be told.
fault_of_library() {
    [ -e "$loader" ] || { echo "this system has no GNU C library ($loader is missing), and the program wants it, in version $least_library or newer"; return; }
    version=$(library_version)
    [ -z "$version" ] || is_at_least "$version" "$least_library" ||
        echo "the GNU C library here is version $version, and the program wants $least_library or newer: a newer system has it, or a container with one"
}
