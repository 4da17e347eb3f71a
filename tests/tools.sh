# What the scripts beside this one share.

say() { printf '== %s\n' "$*"; }

# add PACKAGE..: installs Debian's packages
add() { { apt-get update && DEBIAN_FRONTEND=noninteractive apt-get install -y --no-install-recommends "$@"; } </dev/null >/dev/null 2>&1; }

# need COMMAND PACKAGE: installs Debian's package where the command is missing
need() {
    command -v "$1" >/dev/null 2>&1 && return 0
    say "installing $2 for the command $1"
    add "$2" && command -v "$1" >/dev/null 2>&1 && return 0
    say "$1 is missing, and Debian's package $2 could not be installed"
    exit 1
}

# the toolchain is no Debian package: it has to be there
need_rt() {
    command -v rt >/dev/null 2>&1 && return 0
    say "the Rattle toolchain's command rt is not on the PATH"
    exit 1
}

# need_cc: leaves in cc the word that compiles and links C
need_cc() {
    cc=gcc
    links_c && return 0
    say "installing gcc and libc6-dev for the command $cc"
    add gcc libc6-dev && links_c && return 0
    say "$cc links no program, and Debian's packages gcc and libc6-dev could not be installed"
    exit 1
}

links_c() {
    probe=$(mktemp) || exit 1
    echo 'int main(void) { return 0; }' | $cc -x c - -o "$probe" 2>/dev/null
    linked=$?
    rm -f "$probe"
    return $linked
}

library=target/staticlib/libmizhgavul.a

# make_library: proves what the library for callers in C stands on, and writes it for every x86-64 processor, since it can't check which
# one it runs on; where that fails, shows what the toolchain said and leaves no library of other code
make_library() {
    rm -f "$library"
    if said=$(cd crates/mizhgavul_c && rt lib --cpu x86-64 2>&1); then
        mkdir -p "${library%/*}" && cp crates/mizhgavul_c/out/libmizhgavul_c.a "$library"
        return
    fi
    printf '%s\n' "$said"
    return 1
}

# built FILE WORD..: compiles and links a program in C with that library
built() {
    file=$1
    shift
    $cc -std=c11 -Wall -Wextra -Werror -Iinclude "$@" "$library" -o "$file"
}

# crate_names: the crates, from the lowest up
crate_names() { sed -n 's/^\([a-z0-9_]*\)[^:#]*:.*/\1/p' crates.txt; }
