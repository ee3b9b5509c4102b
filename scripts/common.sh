# shellcheck shell=bash
# What the scripts share. A script sets `root`, the repository's folder, and `script`, its own name, and then sources this. What is
# said here goes to standard error.
: "${root:?}" "${script:?}"

say() { echo "$script: $*" >&2; }

die() {
    say "$@"
    exit 1
}

# The lines of the script's first comment that say how it is called.
usage() { awk '/^[^#]/ { exit } /^#   / { print (n++ ? "       " : "usage: ") substr($0, 5) }' "$root/$script"; }

wrong_usage() {
    usage >&2
    exit 2
}

# An absolute path. A relative one counts from the folder that the script was called in.
caller=$PWD
absolute() { (cd "$caller" && realpath -m -- "$1"); }

# Whether a command is there.
has() { command -v "$1" >/dev/null; }

sum() { sha256sum | cut -d ' ' -f 1; }

# The sum of everything that decides what is proved: the crates' sources, and the kit.
sources() {
    {
        rt version
        cd "$root" || exit
        find crates.txt crates -name out -prune -o -type f \
            \( -name crates.txt -o -path '*/src/*' -o -path '*/specs/*' -o -path '*/proofs/*' \) -print0 |
            LC_ALL=C sort -z | xargs -0 sha256sum
    } | sum
}

# proved FILE COMMAND...: has COMMAND make FILE, unless FILE is there and whole for these sources, which FILE.sum tells: it has the
# sum of the sources and that of FILE. If COMMAND fails or is stopped, there is no FILE.sum.
proved() {
    local file=$1 shown=${1#"$root"/} of
    shift
    of=$(sources)
    if [ -f "$file" ] && [ "$(cat "$file.sum" 2>/dev/null)" = "$of $(sum <"$file")" ]; then
        say "$shown is there, proved from these sources"
        return
    fi
    say "proving, to make $shown; this takes minutes"
    rm -f "$file" "$file.sum"
    if ! (cd "$root" && "$@") </dev/null >&2 || [ ! -f "$file" ]; then
        rm -f "$file"
        die "$shown was not made: see above"
    fi
    echo "$of $(sum <"$file")" >"$file.sum.new"
    mv "$file.sum.new" "$file.sum"
}

# The Rattle kit's folder.
kit() { (cd "$(dirname "$(rt doc)")" && pwd); }

needs_kit() { has rt || die "the Rattle kit is needed: its command rt is not on PATH$*"; }

# Proves the program that lists functions, and sets `program` to the words that run it here. It is x86-64 code; on another processor
# it runs under an emulator, with the kit's loader and C library.
program() {
    local libraries
    needs_kit ""
    proved "$root/target/bin/functions" check_functions
    program=("$root/target/bin/functions")
    if [ "$(uname -m)" != x86_64 ]; then
        emulator
        libraries=$(kit)/on/$(uname -m)/toolchain/lib
        [ -e "$libraries/ld-linux-x86-64.so.2" ] || libraries=$(kit)/toolchain/lib
        program=("${emulator[@]}" "$libraries/ld-linux-x86-64.so.2" --library-path "$libraries" "${program[@]}")
    fi
}

# `rt run` proves and makes the program, and runs it, here on nothing.
check_functions() {
    (cd crates/functions && rt run </dev/null) && mkdir -p target/bin && cp crates/functions/out/functions target/bin/functions
}

# Sets `emulator` to what runs x86-64 code here: nothing on x86-64; elsewhere the kit's emulator, another one, or Debian's.
emulator() {
    local own
    emulator=()
    [ "$(uname -m)" != x86_64 ] || return 0
    emulator=(qemu-x86_64)
    if has rt; then
        own=$(kit)/on/$(uname -m)/toolchain/bin/qemu-x86_64
        if [ -x "$own" ]; then
            emulator=("$own")
            return
        fi
    fi
    if ! has qemu-x86_64; then
        say "the library and the programs are x86-64 code, and this processor is $(uname -m): an emulator is needed"
        packages qemu-user
    fi
}

# Whether a Debian package is installed.
installed() { [ "$(dpkg-query -W -f '${db:Status-Status}' "$1" 2>/dev/null)" = installed ]; }

# packages NAME...: installs those of Debian's packages that aren't installed. Nothing is removed, and no architecture is added.
packages() {
    local name missing=()
    for name; do
        installed "$name" || missing+=("$name")
    done
    [ ${#missing[@]} -gt 0 ] || return 0
    if ! has apt-get || [ "$(id -u)" != 0 ]; then
        die "Debian's packages ${missing[*]} are needed; run as root on Debian, this installs them"
    fi
    say "installing Debian's packages ${missing[*]}, with what they need"
    apt-get -q update </dev/null >&2 || say "apt-get update failed; going on with the lists that are there"
    DEBIAN_FRONTEND=noninteractive apt-get -q install -y --no-install-recommends --no-remove "${missing[@]}" </dev/null >&2 ||
        die "apt-get did not install ${missing[*]}: see above. It was not allowed to remove packages, and removed none"
}

# unpacked NAME[:ARCHITECTURE][=VERSION]: unpacks one of Debian's packages under target/packages, without installing it, and sets
# `unpacked` to its folder. The lists of packages that this needs are kept there too, so that the system's stay as they are.
unpacked() {
    local all=$root/target/packages apt
    unpacked=$all/${1/:/-}
    [ ! -e "$unpacked/whole" ] || return 0
    has apt-get || die "Debian's package $1 is needed, and there is no apt-get to fetch it"
    say "fetching Debian's package $1 into target/packages; it isn't installed"
    rm -rf "$unpacked"
    mkdir -p "$unpacked" "$all/lists/partial" "$all/cache/archives/partial"
    apt=(apt-get -qq -o Dir::State::Lists="$all/lists" -o Dir::Cache="$all/cache" -o APT::Sandbox::User=root)
    case $1 in *:amd64*) apt+=(-o APT::Architectures::="$(dpkg --print-architecture)" -o APT::Architectures::=amd64) ;; esac
    "${apt[@]}" update </dev/null >&2 || say "apt-get update failed; going on with the lists that are there"
    (cd "$unpacked" && "${apt[@]}" download "$1" && dpkg-deb -x ./*.deb .) </dev/null >&2 || die "Debian's package $1 was not fetched: see above"
    # `rt ci` takes no links in a checkout: each becomes a copy of what it names, or goes where that isn't there.
    find "$unpacked" -type l -print0 | while IFS= read -r -d '' link; do
        to=$(realpath -e "$link" 2>/dev/null) || to=
        rm "$link"
        [ -z "$to" ] || cp -rL "$to" "$link" 2>/dev/null || rm -rf "$link"
    done
    touch "$unpacked/whole"
}

# Whether a C compiler, given by its words, is there and can make a program.
can_link() { has "$1" && "$@" -x c -o /dev/null - <<<'int main(void) { return 0; }' 2>/dev/null; }

# Whether there is a cargo, with a rustc of a release 1.N or newer.
has_cargo() { has cargo && has rustc && [ "$(rustc --version | sed 's/^rustc 1\.\([0-9]*\).*/\1/')" -ge "$1" ]; }

# rust N [native]: sees to a cargo of release 1.N or newer that makes x86-64 code, to a linker, and to what runs that code, in
# `emulator`. With `native` it is to make code of the processor at hand.
rust() {
    local for_x86_64='x86_64-unknown-linux-gnu'
    emulator=()
    if [ "$(uname -m)" = x86_64 ] || [ -n "${2:-}" ]; then
        has cargo || packages cargo-web
        has_cargo "$1" || die "Rust 1.$1 or newer is needed, and this is: $(rustc --version 2>&1)"
        can_link cc || packages gcc libc6-dev
        return
    fi
    can_link x86_64-linux-gnu-gcc || packages gcc-x86-64-linux-gnu libc6-dev-amd64-cross
    emulator
    # Where Debian's cross compiler has its C library.
    emulator+=(-L /usr/x86_64-linux-gnu)
    export CARGO_BUILD_TARGET=$for_x86_64
    export CARGO_TARGET_X86_64_UNKNOWN_LINUX_GNU_LINKER=x86_64-linux-gnu-gcc
    export CARGO_TARGET_X86_64_UNKNOWN_LINUX_GNU_RUNNER="${emulator[*]}"
    if has_cargo "$1" && compgen -G "$(rustc --print target-libdir --target "$for_x86_64")/libstd-*.rlib" >/dev/null; then
        return
    fi
    # Debian has the standard library for x86-64 in a package of that architecture alone. Installed, it would bring the architecture
    # and a second C library, so it is only unpacked.
    packages cargo-web rustc-web
    export PATH=/usr/bin:$PATH
    unpacked "libstd-rust-web-dev:amd64=$(dpkg-query -W -f '${Version}' rustc-web)"
    export RUSTFLAGS="--sysroot=$unpacked/usr" RUSTDOCFLAGS="--sysroot=$unpacked/usr"
}

# The corpus of real sections and frames, and a file in which each test or group that doesn't find it leaves a line.
corpus() {
    BRASSPURSE_CORPUS=$(absolute "${BRASSPURSE_CORPUS:-$root/../shared/corpus}")
    BRASSPURSE_SKIPPED=$(mktemp)
    export BRASSPURSE_CORPUS BRASSPURSE_SKIPPED
    trap 'rm -f "$BRASSPURSE_SKIPPED"' EXIT
}

# How many lines that file has.
skipped() { wc -l <"$BRASSPURSE_SKIPPED"; }
