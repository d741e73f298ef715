# What the scripts of this folder have in common: they begin with `. "$here/common.sh"`.

# The kit's folder, or nothing where its rattle isn't in PATH.
kit=$(command -v rattle) && kit=$(readlink -f -- "$kit") && kit=${kit%/bin/rattle} || kit=

give_up() {
    echo "tools/platforms/${0##*/}: $1" >&2
    exit 1
}

must_have_kit() {
    [ -n "$kit" ] || give_up "the kit's rattle isn't in PATH"
}

# Compiles a file of C for aarch64 against the C library in a folder that `fetch` made: FOLDER FILE OBJECT [OPTION..].
compile_for_aarch64() {
    library=$1 file=$2 compiled=$3
    shift 3
    "$kit/toolchain/bin/clang" --target=aarch64-linux-gnu -march=armv8-a --no-default-config -std=c17 -O2 -fPIE \
        -fno-strict-aliasing -ffunction-sections -fdata-sections -Wall -Wextra -Werror -nostdinc \
        -isystem "$library/include" "$@" -c "$file" -o "$compiled"
}

# Compiles a file of C for a machine, x86_64 or aarch64, that includes none: MACHINE FILE OBJECT.
compile_alone() {
    "$kit/toolchain/bin/clang" "--target=$1-linux-gnu" --no-default-config -std=c17 -O2 -fPIE -ffunction-sections \
        -fdata-sections -Wall -Wextra -Werror -nostdinc -c "$2" -o "$3"
}
