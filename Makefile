# For a stranger: `make demo` builds the program in minutes and runs its first job, `make test` runs every test,
# `make prove` proves everything. They want the kit (`rt` on the PATH), python3 and gcc.

.PHONY: demo build prove test edits libraries programs tests bench figures replicated install uninstall deb dist clean

# The program without its proofs, as bin/snapd.
demo:
	@sh packaging/needs.sh rt python3
	@python3 verification/quick.py --demo

build:
	@sh packaging/needs.sh rt python3
	@python3 verification/quick.py

# Every proof of the program, from nothing or from this machine's archive of such runs (with FRESH=1 from nothing), the
# program by two compilers, the edits that must-fail.lock lacks, and the end-to-end tests on the proved program. It
# writes proofs.lock.
prove:
	@sh packaging/needs.sh rt python3 gcc
	@python3 verification/test.py --prove $(if $(FRESH),--fresh)

# Every test; proofs and edits where the locks lack them, and a sample of the others.
# With PROVE=all every crate is proved.
test:
	@sh packaging/needs.sh rt python3 gcc
	@python3 verification/test.py $(if $(filter all,$(PROVE)),--all) $(if $(FRESH),--fresh)

# Tries the edits that must-fail.lock doesn't have as they are now, with CRATES="NAME .." those of these crates, and
# records them. With EVERY=1 also those that it has.
edits:
	@sh packaging/needs.sh rt python3
	@python3 verification/test.py --edits $(if $(EVERY),--all) $(CRATES)

# Lays the libraries that this machine has proved before where `rt check` looks, so that it begins at once in any crate.
libraries:
	@sh packaging/needs.sh rt python3
	@python3 verification/test.py --lay

# The program that the end-to-end tests run beside snapd, without its proofs, and these tests alone, on bin/snapd.
programs:
	@sh packaging/needs.sh rt python3
	@python3 verification/quick.py try_parts

tests: programs
	python3 tests/run.py

# What is timed has no checks in it, so it is proved.
bench:
	@sh packaging/needs.sh rt python3 gcc
	python3 verification/test.py --prove snapd try_bench
	python3 bench/run.py
	python3 bench/server.py
	python3 bench/others.py
	python3 bench/seen.py

# Draws docs/figures/*.svg from the figures beside them.
figures:
	@sh packaging/needs.sh python3
	@python3 bench/plots.py

# The client in C as libraries, and the one in Python as a wheel and an sdist. A change of a call or of the layout of
# snapd_client gets the next SONAME.
CLIENTS ?= out
CFLAGS ?= -O2
SONAME = libsnapd.so.0

.PHONY: clients c-client install-clients
clients: c-client
	@sh packaging/needs.sh python3
	python3 clients/python/build_wheel.py '$(CLIENTS)'

c-client:
	mkdir -p '$(CLIENTS)'
	$(CC) $(CFLAGS) -std=c99 -fPIC -c -o '$(CLIENTS)/snapd.o' clients/c/snapd.c
	$(CC) $(LDFLAGS) -shared -Wl,-soname,$(SONAME) -Wl,--version-script=clients/c/snapd.map \
	    -o '$(CLIENTS)/$(SONAME)' '$(CLIENTS)/snapd.o'
	ln -sf $(SONAME) '$(CLIENTS)/libsnapd.so'
	$(AR) rcs '$(CLIENTS)/libsnapd.a' '$(CLIENTS)/snapd.o'

# Installs bin/snapd as `make prove` or `make build` left it, its page of the manual, completions, headers for C with
# the libraries if they were built, the unit with its user and folder, and the documents. All go below DESTDIR with
# PREFIX, as packages want it. Nothing is started.
PREFIX ?= /usr/local
DESTDIR ?=
PROGRAM ?= bin/snapd
TO = $(DESTDIR)$(PREFIX)
UNIT = lib/systemd/system/snapd-board@.service
DOCUMENTS = LICENSE README.md CHANGELOG.md SECURITY.md docs/*.md docs/board.png docs/figures/*.svg packaging/NOTICES \
	$(foreach it,systemd/socket.conf prometheus/* grafana/* kubernetes/*,packaging/$(it))
# Each file as it lies here and as it lies below PREFIX.
FILES = $(foreach it,snapd.h snapd_segment.h,clients/c/$(it):include/$(it)) \
	packaging/snapd.1:share/man/man1/snapd.1 \
	packaging/completions/snapd.bash:share/bash-completion/completions/snapd \
	packaging/completions/_snapd:share/zsh/site-functions/_snapd \
	packaging/completions/snapd.fish:share/fish/vendor_completions.d/snapd.fish \
	$(foreach it,sysusers.d tmpfiles.d,packaging/$(it)/snapd-board.conf:lib/$(it)/snapd-board.conf) \
	$(foreach it,$(wildcard $(DOCUMENTS)),$(it):share/doc/snapd-board/$(it))

install:
	@test -x '$(PROGRAM)' || { echo 'there is no $(PROGRAM): run make build first' >&2; exit 1; }
	install -D -m 755 '$(PROGRAM)' '$(TO)/bin/snapd'
	@set -e; for it in $(FILES); do install -D -m 644 "$${it%%:*}" '$(TO)'/"$${it#*:}"; done
	install -D -m 644 'packaging/systemd/snapd-board@.service' '$(TO)/$(UNIT)'
	sed -i 's|/usr/local/bin/|$(PREFIX)/bin/|' '$(TO)/$(UNIT)'
	@test ! -e '$(CLIENTS)/$(SONAME)' || $(MAKE) --no-print-directory install-clients

# Where the libraries go, below PREFIX.
LIBDIR ?= lib
LIBRARIES = $(foreach it,$(SONAME) libsnapd.so libsnapd.a pkgconfig/snapd.pc,$(LIBDIR)/$(it))

install-clients:
	install -d '$(TO)/$(LIBDIR)/pkgconfig'
	install -m 644 '$(CLIENTS)/$(SONAME)' '$(CLIENTS)/libsnapd.a' '$(TO)/$(LIBDIR)'
	ln -sf $(SONAME) '$(TO)/$(LIBDIR)/libsnapd.so'
	version=$$(sed -n 's/.*SNAPD_VERSION "\(.*\)"/\1/p' clients/c/snapd.h) && \
	sed 's|@PREFIX@|$(PREFIX)|;s|/lib$$|/$(LIBDIR)|;s|@VERSION@|'"$$version"'|' clients/c/snapd.pc.in \
	    > '$(CLIENTS)/snapd.pc'
	install -m 644 '$(CLIENTS)/snapd.pc' '$(TO)/$(LIBDIR)/pkgconfig'

uninstall:
	@for it in $(FILES) $(LIBRARIES:%=:%) :$(UNIT) :bin/snapd; do rm -f '$(TO)'/"$${it#*:}"; done
	rm -rf '$(TO)/share/doc/snapd-board'

# A package for Debian, and a tarball with a digest of each file and what it was made of, both in out/, of bin/snapd and
# the client in C.
deb:
	@sh packaging/needs.sh rt python3 gcc dpkg-deb
	@python3 packaging/deb.py

dist:
	@sh packaging/needs.sh rt python3 gcc
	@python3 packaging/dist.py

# Fails hosts under a server whose files have three copies, 50 times in each of four ways, for half an hour. It wants
# bin/snapd, root, FUSE and some packages of Debian's, says so in one line where something is missing, and is no part of
# `make test`.
replicated:
	python3 bench/replicated.py

clean:
	rm -rf bin out crates/*/out
