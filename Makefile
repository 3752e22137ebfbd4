# Installs the command, the library for C, and what belongs to them. GNU make.
#
#   make                        build, through bin/menduvo
#   make install PREFIX=..      install there; without PREFIX in /usr/local
#   make uninstall PREFIX=..    remove the files that were installed there, and nothing else
#
# DESTDIR is put before every path that is written, and stands in no file. MENDUVO_LIB_DIR means what it means for bin/menduvo.
PREFIX = /usr/local
DESTDIR =
# As variables of the shell, so that no sign in them has a meaning for it.
export PREFIX DESTDIR

SHELL = bash
.SHELLFLAGS = -euo pipefail -c
.ONESHELL:
.SILENT:
.PHONY: all install uninstall

# All that is installed, from PREFIX; of docs, what the help names.
documents = SOURCE.md FILING.md SMT-TEXT.md output.schema.json
files = bin/menduvo lib/libmenduvo.a include/menduvo.h lib/pkgconfig/menduvo.pc share/man/man1/menduvo.1 \
    share/bash-completion/completions/menduvo $(documents:%=share/doc/menduvo/%)

# Sets prefix, which stands in menduvo.pc, and place, where files are written.
define find_place
case $$PREFIX in
    '') echo 'PREFIX is empty: name a folder, or / for the root' >&2 && exit 1 ;;
    '~'*) echo "PREFIX is $$PREFIX, and no shell put a folder for the ~: write \$$HOME" >&2 && exit 1 ;;
    *[$$'\n\t"#$$\\`']*) echo "PREFIX is $$PREFIX, and has a sign that menduvo.pc cannot hold" >&2 && exit 1 ;;
    /*) prefix=$$PREFIX ;;
    *) prefix=$$PWD/$$PREFIX ;;
esac
until [ "$${prefix%/}" = "$$prefix" ]; do prefix=$${prefix%/}; done
place=$$DESTDIR$$prefix
[ ! "$$place/bin" -ef bin ] || { echo 'PREFIX is this tree, which has a bin/menduvo of its own' >&2 && exit 1; }
endef

# bin/menduvo tells its command the commit. A command that is installed has nobody to tell it, so it is built here once more,
# with the commit compiled in: where its sources, the commit or the library changed. 'make install' after 'make' builds nothing.
all:
	version=$$(bin/menduvo --version)
	commit=$${version#*'(commit '} && commit=$${commit%', library '*}
	sources=$$(find tool bindings cases docs -name target -prune -o -type f -exec sha256sum {} + | LC_ALL=C sort | sha256sum)
	made_of=$$version$$'\n'$$sources
	[ "$$(cat target/install/made_of 2>/dev/null)" != "$$made_of" ] || exit 0
	echo 'compiling the command that is installed' >&2
	rm -rf target/install
	library=$$(readlink -e -- "$${MENDUVO_LIB_DIR:-target/staticlib}")
	MENDUVO_BUILD_COMMIT=$$commit MENDUVO_LIB_DIR=$$library cargo build --release --offline --locked --quiet \
		--manifest-path tool/Cargo.toml --target-dir target/install
	mkdir -p target/install/files/{bin,lib,include,share/man/man1,share/bash-completion/completions,share/doc/menduvo}
	cd target/install/files
	cp ../release/menduvo bin/
	cp -- "$$library/libmenduvo.a" lib/
	cp ../../../bindings/menduvo.h include/
	cp $(documents:%=../../../docs/%) share/doc/menduvo/
	bin/menduvo help --man >share/man/man1/menduvo.1
	bin/menduvo help --bash-completion >share/bash-completion/completions/menduvo
	printf '%s\n' "$$made_of" >../made_of

install: all
	$(find_place)
	version=$$(sed -n 's/^#define MENDUVO_VERSION "\(.*\)"$$/\1/p' bindings/menduvo.h)
	pc=$$(<bindings/menduvo.pc.in)
	pc=$${pc//@VERSION@/"$$version"} && pc=$${pc//@PREFIX@/"$$prefix"}
	for file in $(files); do
		case $$file in
			bin/*) install -D -m 755 "target/install/files/$$file" "$$place/$$file" ;;
			*.pc) install -D -m 644 /dev/stdin "$$place/$$file" <<<"$$pc" ;;
			*) install -D -m 644 "target/install/files/$$file" "$$place/$$file" ;;
		esac
		echo "installed $$place/$$file"
	done

uninstall:
	$(find_place)
	for file in $(files); do
		[ ! -e "$$place/$$file" ] && [ ! -L "$$place/$$file" ] && continue
		rm -f -- "$$place/$$file"
		echo "removed $$place/$$file"
	done
