# make               proves the programs and the library that are installed; it needs the Rattle kit (`rt` on the path)
# make claims        writes out/claims.md: each public function with its promise, its clauses and the wrong bodies that are refused
# make install       installs them with their tools, headers, manual page, completion, documents and examples; PREFIX= is /usr/local
# make uninstall     takes the same files away
# make package       makes a Debian package and a tarball of them, in out/package
# make html          makes a site of the documents with a search field, in out/html (by Debian's python3-sphinx and python3-myst-parser)
# make release       makes both and their checksums in out/release, of what is proved and committed
# make test          the tests: ./cfetbl test
#
# DESTDIR= stands before each path that is written, as packages need it. PROGRAMS= is a folder with other builds of the programs and the library.
PREFIX = /usr/local
export DESTDIR PREFIX PROGRAMS

all:
	tools/publish/install programs

claims:
	tools/develop/gate/claims

.PHONY: claims

install uninstall:
	tools/publish/install $@

package release:
	tools/publish/$@

html:
	tools/publish/site

test:
	./cfetbl test

.PHONY: all install uninstall html package release test
