# What run, check and gate share: the tools, and how the programs are built.

# The static library with the proved desk. Where the file is not there, the rows of the proved desk are left out.
LIBRARY=${LIBRARY:-crates/port/out/libport.a}

out=target/bench
machine=$(uname -m)
cc=${CC:-gcc}
items=${ITEMS:-16}
strict="-DITEMS=$items -std=c11 -D_DEFAULT_SOURCE -Wall -Wextra -Wpedantic"
mkdir -p "$out"

# The kit's compiler.
kit=''
if command -v rt >/dev/null; then kit=$(dirname "$(dirname "$(readlink -f "$(command -v rt)")")"); fi
tools=$kit/toolchain

say() { printf 'bench: %s\n' "$*" >&2; }
die() { say "$*"; exit 2; }

# x86-64 is what `rt lib` writes for.
library_is_native() { [ "$machine" = x86_64 ]; }

has_bdb() { printf '#include <db.h>\nint main(void) { return db_version(0, 0, 0) == 0; }\n' | $cc -D_DEFAULT_SOURCE -x c - -o "$out/has_bdb" -ldb-5.3 2>/dev/null; }

# Berkeley DB is installed where it is missing and that is allowed; it may stay missing.
want_bdb() {
    has_bdb && return
    if [ "$(id -u)" = 0 ] && command -v apt-get >/dev/null; then
        say 'installing libdb5.3-dev'
        { apt-get update && apt-get install -y libdb5.3-dev; } >"$out/apt.log" 2>&1 || true
    fi
    has_bdb && return
    say "no Berkeley DB (Debian package libdb5.3-dev), and it could not be installed: its column is left out"
    return 1
}

# The C compilers that may make the tuned desk. The kit's clang comes without C's headers: gcc's serve.
compilers() {
    echo "$cc"
    if command -v clang >/dev/null; then echo clang; fi
    if [ -x "$tools/bin/clang" ]; then echo kit-clang; fi
}
compile_with() { # COMPILER FILE OBJECT
    local headers
    case $1 in
    kit-clang)
        headers="-nostdinc -isystem $($cc -print-file-name=include) -isystem /usr/include/$($cc -dumpmachine) -isystem /usr/include"
        # shellcheck disable=SC2086
        "$tools/bin/clang" $strict -O3 $headers -c "$2" -o "$3"
        ;;
    *)
        # shellcheck disable=SC2086
        "$1" $strict -O3 -c "$2" -o "$3"
        ;;
    esac
}
version_of() { # COMPILER
    case $1 in
    kit-clang) echo "the kit's $("$tools/bin/clang" --version | sed -n '1s/.*\(clang version [0-9.]*\).*/\1/p')" ;;
    *) "$1" --version | sed -n '1s/ version//;1p' ;;
    esac
}

# Builds bench/NAME.c, and others beside it, with the static library into $out/NAME.
build_with_library() { # NAME [OTHER..]
    library_is_native || die "the library is for x86-64, and this machine is $machine"
    # shellcheck disable=SC2046,SC2086
    $cc $strict -O2 -DWITH_PROVED $(printf 'bench/%s.c ' "$@") "$LIBRARY" -o "$out/$1"
}

# Builds bench and drive in FOLDER. `tuned_by` says who compiles the tuned desk; WORDS: bdb, or a library to link.
build() { # FOLDER [bdb] [LIBRARY]
    local folder=$1 word flags='' link='' sources='' name
    shift
    for word; do
        case $word in
        bdb) flags="$flags -DWITH_BDB" link="$link -ldb-5.3" sources="$sources bdb" ;;
        *) flags="$flags -DWITH_PROVED" link="$word $link" ;;
        esac
    done
    mkdir -p "$folder"
    compile_with "$tuned_by" bench/tuned.c "$folder/tuned.o"
    for name in plain steps desks traffic main drive $sources; do
        # shellcheck disable=SC2086
        $cc $strict -O2 $flags -c "bench/$name.c" -o "$folder/$name.o"
    done
    set -- "$folder/plain.o" "$folder/steps.o" "$folder/tuned.o" "$folder/desks.o" "$folder/traffic.o"
    for name in $sources; do set -- "$@" "$folder/$name.o"; done
    # shellcheck disable=SC2086
    $cc "$folder/main.o" "$@" $link -o "$folder/bench"
    # shellcheck disable=SC2086
    $cc "$folder/drive.o" "$@" $link -o "$folder/drive"
}
