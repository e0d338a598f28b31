# For the tests that need what a machine may not have: Debian's packages, installed where they are missing.

# Whether a command, or a file by its path, is there.
has() { # COMMAND-OR-PATH
    if [[ $1 == */* ]]; then [ -e "$1" ]; else command -v "$1" > /dev/null; fi
}

# Installs a package, without a word; the lists of packages are fetched only if it is not known without.
install_package() { # PACKAGE
    local get=(env DEBIAN_FRONTEND=noninteractive apt-get)
    "${get[@]}" install -y "$1" > /dev/null 2>&1 ||
        { "${get[@]}" update && "${get[@]}" install -y "$1"; } > /dev/null 2>&1
}

# A command or a file is there, or comes with its package; else this fails in one line.
need() { # COMMAND-OR-PATH PACKAGE
    has "$1" || install_package "$2" || true
    has "$1" || { echo "$1 is missing, and Debian's package $2 could not be installed" >&2; return 1; }
}
