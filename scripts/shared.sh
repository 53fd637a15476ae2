# For the scripts of .ci/, bench/, firmware/, oracle/, peers/ and scripts/, which stand at the repository's root when they use it. Sourced, by sh or bash.

# `--help` prints the script's first comment; an option that it does not have, or a word too many, ends it with a line and 2.
options() { # SCRIPT MOST-WORDS WORD..
    script=$1 most=$2
    shift 2
    for word; do
        case $word in
        -h | --help)
            sed -n '1d; /^#/!q; s/^# \{0,1\}//p' "$script"
            exit
            ;;
        -*)
            echo "$script: no option $word (--help says what there is)" >&2
            exit 2
            ;;
        esac
    done
    if [ $# -gt "$most" ]; then
        echo "$script: more words than it takes, which is $most (--help says which)" >&2
        exit 2
    fi
}

# Words that have to be numbers, before anything is built for them.
numbers() { # WORD..
    for word; do
        case $word in
        '' | *[!0-9]*)
            echo "$script: '$word' is no number (--help says which it takes)" >&2
            exit 2
            ;;
        esac
    done
}

# For what runs the toolchain's command.
needs_rt() {
    command -v rt >/dev/null && return
    echo "${script:-$0}: rt, the toolchain's command, is not on the path; README.md says where the toolchain comes from" >&2
    exit 1
}

# The toolchain's folder: its compiler is toolchain/bin/clang, its linker bin/rattle-link.
kit() {
    needs_rt
    dirname "$(rt doc)"
}

# What was changed in the crates since FILE was made. What rt makes of them, crates/NAME/out, is none of it.
newer_than() { # FILE
    find crates crates.txt -path 'crates/*/out' -prune -o -type f -newer "$1" -print
}

# A command that is heard only where it fails.
quietly() { # LOG COMMAND..
    log=$1
    shift
    "$@" >"$log" 2>&1 || {
        cat "$log" >&2
        echo "$script: this failed: $*" >&2
        exit 1
    }
}

# The version, as the header has it.
version() {
    sed -n 's/^#define BRINECANDLE_VERSION "\(.*\)"$/\1/p' include/brinecandle.h
}

# The symbol that says which version an archive is. The header refers to it: with another version's archive a program does not link.
version_symbol() {
    echo "brinecandle_is_$(version | tr . _)"
}

# Makes the archive, target/staticlib/libpanel.a: that of `rt lib` in the panel's folder, which writes code only once the crate is proved, and
# proves what is kept from no earlier run. Not twice for the same text. For every x86-64 processor: rt's own choice is x86-64-v2, with SSE4.
proved_archive() { # LOG
    made=target/staticlib/libpanel.a
    if [ ! -f "$made" ] || [ -n "$(newer_than "$made")" ]; then
        needs_rt
        echo "Proving the panel's core, which takes some minutes ($1 says how far it is)" >&2
        quietly "$1" env -C crates/panel rt lib --cpu x86-64
        mkdir -p target/staticlib
        cp crates/panel/out/libpanel.a "$made"
    fi
    mark "$made"
}

# Gives the archive its second member, version.o: one byte, under the version's symbol. The same bytes each time.
mark() { # ARCHIVE
    symbol=$(version_symbol)
    [ "$(LC_ALL=C grep -aoE 'brinecandle_is_[0-9]+_[0-9]+' "$1" | sort -u)" != "$symbol" ] || return 0
    tools=$(kit)/toolchain/bin
    echo "const char $symbol = 1;" |
        "$tools/clang" --target=x86_64-unknown-linux-gnu -x c -c -o "$(dirname "$1")/version.o" - &&
        "$tools/llvm-ar" rcsD "$1" "$(dirname "$1")/version.o" || {
        echo "${script:-$0}: $1 could not be given its version" >&2
        exit 1
    }
}

# Puts headers, library and the files of package/ into a folder, as one that will stand at the prefix.
installed() { # FOLDER PREFIX
    umask 022
    version=$(version)
    mkdir -p "$1/include" "$1/lib/pkgconfig" "$1/lib/cmake/Brinecandle" "$1/share/doc/brinecandle"
    install -m 644 include/brinecandle.h include/brinecandle_panel.h "$1/include"
    install -m 644 target/staticlib/libpanel.a "$1/lib/libbrinecandle.a"
    install -m 644 package/BrinecandleConfig.cmake "$1/lib/cmake/Brinecandle"
    install -m 644 LICENSE NOTICE "$1/share/doc/brinecandle"
    filled "$2" package/brinecandle.pc.in "$1/lib/pkgconfig/brinecandle.pc"
    filled "$2" package/BrinecandleConfigVersion.cmake.in "$1/lib/cmake/Brinecandle/BrinecandleConfigVersion.cmake"
}

# Fills in prefix and version, each at most once in a line.
filled() { # PREFIX TEMPLATE FILE
    PREFIX=$1 VERSION=$version awk '
        function put(word, value,    at) {
            if ((at = index($0, word)) > 0) $0 = substr($0, 1, at - 1) value substr($0, at + length(word))
        }
        { put("@PREFIX@", ENVIRON["PREFIX"]); put("@VERSION@", ENVIRON["VERSION"]); print }
    ' "$2" >"$3"
    chmod 644 "$3"
}

# What Debian's qemu-x86_64 takes to run a program on another machine, with the libraries of the package libc6-amd64-cross. Where
# libc6:amd64 is installed beside it, the loader of the one would find the library of the other, and the program die: so it is told.
# shellcheck disable=SC2034
emulated="-L /usr/x86_64-linux-gnu -E LD_LIBRARY_PATH=/usr/x86_64-linux-gnu/lib"

# Installs those of Debian's packages that are not there: as root, else by sudo, else it says what is missing.
packages() { # PACKAGE..
    missing=
    for package; do
        [ "$(dpkg-query -W -f '${db:Status-Status}' "$package" 2>/dev/null)" = installed ] || missing="$missing $package"
    done
    [ -n "$missing" ] || return 0
    as_root=
    if ! command -v apt-get >/dev/null; then
        echo "$script: no apt-get here to install these packages of Debian:$missing" >&2
        exit 1
    fi
    if [ "$(id -u)" -ne 0 ]; then
        as_root=sudo
        command -v sudo >/dev/null || {
            echo "$script: these packages are missing, and it takes root or sudo to install them:$missing" >&2
            exit 1
        }
    fi
    echo "installing$missing" >&2
    # shellcheck disable=SC2086
    { $as_root apt-get update -qq && $as_root apt-get install -y -qq --no-install-recommends $missing; } >/dev/null || {
        echo "$script: could not install$missing" >&2
        exit 1
    }
}
