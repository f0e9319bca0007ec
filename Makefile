# The command line and the libraries for programs in other languages, and their installation.
#
#   make                                    target/lib: the static and the shared library, and the WebAssembly modules;
#                                           target/cli: the command line with its man page and completions;
#                                           target/page: the page that checks proofs. Where the proved archive is not
#                                           there yet, tools/levels makes it (the Rattle kit, gcc and binutils are
#                                           needed)
#   make install [PREFIX=DIR] [DESTDIR=DIR] all of these, header, pkg-config file, Python package and JavaScript
#                                           package, below PREFIX (/usr/local); what is written goes below DESTDIR, and
#                                           names no DESTDIR in it
#
# BINDIR, MANDIR, BASHDIR, ZSHDIR, FISHDIR, INCLUDEDIR, LIBDIR, PYTHONDIR, JAVASCRIPTDIR and PAGEDIR name other folders
# than PREFIX gives. Without cargo there is no command line; without python3 there is no PYTHONDIR, and no package is
# written; without wasm-opt (Debian's package binaryen) there are no WebAssembly modules and no JavaScript package;
# without either of these two there is no page.
PREFIX = /usr/local
BINDIR = $(PREFIX)/bin
MANDIR = $(PREFIX)/share/man
BASHDIR = $(PREFIX)/share/bash-completion/completions
ZSHDIR = $(PREFIX)/share/zsh/site-functions
FISHDIR = $(PREFIX)/share/fish/vendor_completions.d
INCLUDEDIR = $(PREFIX)/include
LIBDIR = $(PREFIX)/lib
PYTHONDIR = $(shell python3 -c \
    'import sysconfig as s; print(s.get_path("purelib", "posix_prefix", {"base": "$(PREFIX)"}))')
JAVASCRIPTDIR = $(PREFIX)/share/javascript/vizhuthamen
PAGEDIR = $(PREFIX)/share/vizhuthamen

header = include/vizhuthamen.h
version := $(shell sed -n 's/^\#define VZ_VERSION "\(.*\)"/\1/p' $(header))
plain = libvizhuthamen.so
# While the first number is 0, programs are compiled anew where the second one rises.
soname = $(plain).$(basename $(version))
shared = $(plain).$(version)
out = target/lib
proved = target/levels/libvizhuthamen.a
modules = $(wildcard python/vizhuthamen/*)
CARGO := $(shell command -v cargo)
WASM_OPT := $(shell command -v wasm-opt)
wasm = vizhuthamen.wasm vizhuthamen-simd.wasm
javascript = javascript/vizhuthamen.mjs javascript/vizhuthamen.d.mts
PYTHON := $(shell command -v python3)
page = $(if $(WASM_OPT),$(if $(PYTHON),target/page/vizhuthamen.html))
cli = target/cli
program = $(cli)/release/vizhuthamen
texts = $(addprefix $(cli)/,vizhuthamen.1 vizhuthamen.bash vizhuthamen.zsh vizhuthamen.fish)

.PHONY: all install
.DELETE_ON_ERROR:

all: $(out)/libvizhuthamen.a $(out)/$(shared) $(if $(CARGO),$(program) $(texts)) \
    $(if $(WASM_OPT),$(wasm:%=$(out)/%)) $(page)
	@$(if $(WASM_OPT),,echo "make: no WebAssembly modules: wasm-opt is not there (Debian's package binaryen)")

$(proved): $(shell find crates -name out -prune -o -name '*.rt' -print)
	tools/levels

$(out)/about.o: c/about.c $(header)
	mkdir -p $(out)
	gcc -O2 -fPIC -Wall -Wextra -Werror -Iinclude -c $< -o $@

$(out)/libvizhuthamen.a: $(proved) $(out)/about.o
	cp $(proved) $@.new
	ar rcsD $@.new $(out)/about.o
	mv $@.new $@

# The names that the shared library has for others: the functions of the header, and nothing else.
$(out)/exported: $(header)
	mkdir -p $(out)
	{ echo '{ global:'; sed -n 's/^[a-z].*[ *]\(vz_[a-z0-9_]*\)(.*/\1;/p' $<; echo 'local: *; };'; } > $@

# Its other names are hard links: `rt ci` takes a checkout with symbolic links for none that it can judge.
$(out)/$(shared): $(out)/libvizhuthamen.a $(out)/exported
	gcc -shared -Wl,--whole-archive $< -Wl,--no-whole-archive -Wl,-soname,$(soname) -Wl,--version-script,$(out)/exported \
	    -Wl,-z,defs,-z,now,-z,relro,-z,noexecstack -o $@
	ln -f $@ $(out)/$(soname)
	ln -f $@ $(out)/$(plain)

$(wasm:%=target/targets/%) &: $(proved) tools/targets tools/kit.bash
	tools/targets

$(wasm:%=$(out)/%): $(out)/%: target/targets/%
	mkdir -p $(out)
	cp $< $@

target/page/vizhuthamen.html: $(wasm:%=$(out)/%) javascript/vizhuthamen.mjs tools/page $(shell find page -type f)
	tools/page

# The archive that chooses a level is linked in; a folder of its own, since tests link others.
$(program): $(proved) $(shell find rust/src -name '*.rs') rust/Cargo.toml rust/Cargo.lock rust/build.rs
	VIZHUTHAMEN_LIB='$(CURDIR)/$(dir $(proved))' $(CARGO) build --release --offline --quiet --bins \
	    --manifest-path rust/Cargo.toml --target-dir $(cli)
	touch $@

$(cli)/vizhuthamen.1: $(program)
	$(program) help --man > $@

$(cli)/vizhuthamen.%: $(program)
	$(program) completions $* > $@

install: all
	install -d '$(DESTDIR)$(INCLUDEDIR)' '$(DESTDIR)$(LIBDIR)/pkgconfig'
	install -m 644 $(header) '$(DESTDIR)$(INCLUDEDIR)'
	install -m 644 $(out)/libvizhuthamen.a '$(DESTDIR)$(LIBDIR)'
	install -m 755 $(out)/$(shared) '$(DESTDIR)$(LIBDIR)'
	ln -sf $(shared) '$(DESTDIR)$(LIBDIR)/$(soname)'
	ln -sf $(soname) '$(DESTDIR)$(LIBDIR)/$(plain)'
	sed -e 's|@PREFIX@|$(PREFIX)|' -e 's|@INCLUDEDIR@|$(INCLUDEDIR)|' -e 's|@LIBDIR@|$(LIBDIR)|' \
	    -e 's|@VERSION@|$(version)|' c/vizhuthamen.pc.in > '$(DESTDIR)$(LIBDIR)/pkgconfig/vizhuthamen.pc'
	[ -z '$(CARGO)' ] || { install -D -m 755 $(program) '$(DESTDIR)$(BINDIR)/vizhuthamen' && \
	    install -D -m 644 $(cli)/vizhuthamen.1 '$(DESTDIR)$(MANDIR)/man1/vizhuthamen.1' && \
	    install -D -m 644 $(cli)/vizhuthamen.bash '$(DESTDIR)$(BASHDIR)/vizhuthamen' && \
	    install -D -m 644 $(cli)/vizhuthamen.zsh '$(DESTDIR)$(ZSHDIR)/_vizhuthamen' && \
	    install -D -m 644 $(cli)/vizhuthamen.fish '$(DESTDIR)$(FISHDIR)/vizhuthamen.fish'; }
	[ -z '$(PYTHONDIR)' ] || { install -d '$(DESTDIR)$(PYTHONDIR)/vizhuthamen' && \
	    install -m 644 $(modules) '$(DESTDIR)$(PYTHONDIR)/vizhuthamen'; }
	[ -z '$(WASM_OPT)' ] || { install -d '$(DESTDIR)$(JAVASCRIPTDIR)' && \
	    install -m 644 $(javascript) $(wasm:%=$(out)/%) '$(DESTDIR)$(JAVASCRIPTDIR)' && \
	    sed 's|@VERSION@|$(version)|' javascript/package.json.in > '$(DESTDIR)$(JAVASCRIPTDIR)/package.json'; }
	[ -z '$(page)' ] || install -D -m 644 $(page) '$(DESTDIR)$(PAGEDIR)/vizhuthamen.html'
