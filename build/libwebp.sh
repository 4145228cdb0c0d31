# shellcheck shell=bash
# Sourced by ./bench and oracle/compare. The caller has `say`.

# shellcheck source=build/package.sh
. "$(dirname -- "${BASH_SOURCE[0]}")/package.sh"

want_libwebp() { # C-COMPILER
    want_package libwebp-dev has_libwebp "$1"
}
has_libwebp() { echo '#include <webp/encode.h>' | "$1" -E -; }

# Whether a program over libwebp's public headers links with these words.
libwebp_links() { # C-COMPILER ROOM WORD..
    local cc=$1 room=$2
    shift 2
    printf '#include <webp/encode.h>\nint main(void) { WebPPicture p; return !WebPPictureInit(&p) || !WebPPictureRescale(&p, 1, 1); }\n' |
        "$cc" -x c - -x none "$@" -o "$room/links" 2>/dev/null
}

# Prints the words that link libwebp's archive, one to a line; nothing where none links. Only the archive is sure to have what the public headers lack.
libwebp_archive() { # C-COMPILER ROOM
    local names
    local -a words
    for names in "-lwebp" "-lwebp -lsharpyuv"; do
        read -ra words <<<"-Wl,-Bstatic $names -Wl,-Bdynamic"
        if libwebp_links "$1" "$2" "${words[@]}" -lm -lpthread; then
            printf '%s\n' "${words[@]}"
            return
        fi
    done
}
