# For checks of what is installed and packaged, which set `copy` and read this file at the top of the clone.

# copy_clone [FOLDER]: copies what `make install`, `make package` and `make release` read of the clone to the folder $copy, and to
# $copy/programs the programs and libraries that lie in FOLDER, or the proved ones.
copy_clone() {
    local name
    mkdir -p "$copy/programs" "$copy"/crates/tbl_main/{specs,proofs} || exit 2
    cp -R .gitignore cfetbl CHANGELOG.md LICENSE Makefile README.md crates.txt c docs man sessions tools "$copy" || exit 2
    cp -R crates/tbl_main/src "$copy/crates/tbl_main" || exit 2
    for name in tbl_main tbl_serve tbl_resets; do
        cp -- "${1:-crates/$name/out}/$name" "$copy/programs" || exit 2
    done
    cp -- "${1:-crates/tbl_c/out}/libtbl_c.a" "$copy/programs" || exit 2
    cp -- "${1:-$(dirname -- "$(rt doc)")/c}/liblibc_c.a" "$copy/programs" || exit 2
    find "$copy" -name __pycache__ -exec rm -rf {} +
}
