# Sourced by ./yolizadwa, examples/try and tests/run, used in the repository's root: how C is built here against the library, which is for x86-64.
machine=$(uname -m)
target=x86_64-unknown-linux-gnu
library=target/staticlib/libyolizadwa.a
flags=(-O2 -Wall -Wextra -pedantic -Werror -Iinclude)

# Programs for x86-64 run under the kit's emulator; where they run by themselves none is needed, nor the kit.
emulator=()
if [ "$machine" != x86_64 ]; then
    kit=$(dirname "$(dirname "$(readlink -f "$(command -v rt)")")")/on/$machine
    tools=$kit/toolchain
    emulator=("$tools/bin/qemu-x86_64" "$tools/lib/ld-linux-x86-64.so.2" --library-path "$tools/lib")
fi

# Elsewhere by the kit's compiler with this machine's headers of the C library, which say the same of what is used here.
compile() { # STANDARD SOURCE OBJECT [FLAG...]
    if [ "$machine" = x86_64 ]; then
        gcc -std="$1" "${flags[@]}" "${@:4}" -c -o "$3" "$2"
    else
        "$tools/bin/clang" --target="$target" -std="$1" "${flags[@]}" "${@:4}" -nostdinc \
            -isystem "$(gcc -print-file-name=include)" -isystem "/usr/include/$(gcc -dumpmachine)" -isystem /usr/include \
            -c -o "$3" "$2"
    fi
}

link() { # PROGRAM OBJECT...
    if [ "$machine" = x86_64 ]; then
        gcc -o "$1" "${@:2}" "$library"
    else
        "$kit/bin/rattle-link" --target "$target" --toolchain "$tools" -o "$1" "${@:2}" "$library"
    fi
}

compile_all() { # STANDARD FOLDER SOURCE...
    local source word
    word=$(rt version)
    for source in "${@:3}"; do
        compile "$1" "$source" "$2/$(basename "$source" .c).o" "-DKIT=\"$word\"" || return
    done
}

# Under a name of its own first, so that nobody finds half a program.
build() { # STANDARD PROGRAM SOURCE...
    local scratch status=0
    mkdir -p "$(dirname "$2")"
    scratch=$(mktemp -d "$2.XXXXXX")
    { compile_all "$1" "$scratch" "${@:3}" && link "$scratch/program" "$scratch"/*.o && mv -f "$scratch/program" "$2"; } ||
        status=$?
    rm -r "$scratch"
    return "$status"
}

build_command() { # PROGRAM
    build c99 "$1" command/*.c command/drawing/*.c
}
