# For the scripts of a clone, which set `top` and read this file: which builds of its programs are there.

# Whether the file is there and nothing at the other places is newer. A folder is newer than the file, too, once a file of it was
# added or taken away.
is_newest_file() {
    local newer
    [ -f "$1" ] && newer=$(find "${@:2}" -newer "$1" -print -quit) && [ -z "$newer" ]
}

# The same of a program.
is_newest() {
    [ -x "$1" ] && is_newest_file "$@"
}

# Whether the program of the crate $1 was proved since a source was changed.
is_proved() {
    is_newest "$top/crates/$1/out/$1" "$top/crates.txt" "$top"/crates/*/{src,specs,proofs}
}

# Whether the static library of the crate $1 was proved since a source was changed.
is_proved_library() {
    is_newest_file "$top/crates/$1/out/lib$1.a" "$top/crates.txt" "$top"/crates/*/{src,specs,proofs}
}

# Whether the unproved build $1 is there, and no source is newer.
is_built() {
    is_newest "$1" "$top/crates.txt" "$top"/crates/*/src
}

# Whether the folder $1 can be written, or can be made.
is_writable() {
    local above=$1
    until [ -e "$above" ]; do above=$(dirname -- "$above"); done
    [ -d "$above" ] && [ -w "$above" ]
}

# Prints the folder of the unproved build of the crate $1: in the clone, or in a cache folder if the clone can't be written and has
# no such build. If there is no cache folder either, it says why on standard error, and fails.
unproved_folder() {
    local folder=$top/out/unproved
    if is_writable "$folder" || is_built "$folder/$1"; then
        printf '%s\n' "$folder"
    else
        cache_folder "$1"
    fi
}

no_cache() {
    echo "cfetbl: $top has no build and can't be written, and there is no cache folder for a build: $1 (XDG_CACHE_HOME names one)" >&2
    return 1
}

# Prints the folder for builds of this clone in the user's cache folder, if it has the crate $1 or can be written.
cache_folder() {
    local cache name folder
    case ${XDG_CACHE_HOME-} in
        /*) cache=$XDG_CACHE_HOME name="XDG_CACHE_HOME, which is $XDG_CACHE_HOME," ;;
        *)
            [ -n "${HOME-}" ] || { no_cache "HOME isn't set"; return; }
            [ -d "$HOME" ] || { no_cache "HOME, which is $HOME, is no folder"; return; }
            cache=$HOME/.cache name="HOME, which is $HOME,"
            ;;
    esac
    folder=$cache/cfetbl/${top//\//%}
    is_built "$folder/$1" || is_writable "$folder" || { no_cache "$name can't be written"; return; }
    printf '%s\n' "$folder"
}
