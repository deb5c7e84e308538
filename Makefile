# make build                     proves and builds the program
# make install PREFIX=/usr/local puts it, the tools, the man page, the completion and the docs under PREFIX (and DESTDIR)
# make uninstall PREFIX=..       takes these away
# make test                      the merge gate

PREFIX = /usr/local
TO = $(DESTDIR)$(PREFIX)
PROGRAM = crates/cedr/out/cedr
KEYS = crates/cedr_keys/out/cedr_keys
TOOLS = $(notdir $(wildcard tools/cedr-*))

# A build proves for half an hour the first time, so it is asked for by its name.
help:
	@sed -n 's/^# make/make/p' Makefile

build:
	cd crates/cedr && rt run -- --version

install:
	@test -x $(PROGRAM) || { echo "$(PROGRAM) isn't there; it is built by: make build" >&2; exit 1; }
	install -d $(TO)/bin $(TO)/share/cedr $(TO)/share/doc/cedr
	install -m 755 $(PROGRAM) $(TO)/bin/cedr
	test ! -x $(KEYS) || install -m 755 $(KEYS) $(TO)/bin/cedr_keys
	cp -R tools/. $(TO)/share/cedr
	for tool in $(TOOLS); do ln -sf ../share/cedr/$$tool $(TO)/bin/$$tool; done
	cp -R README.md docs examples $(TO)/share/doc/cedr
	install -D -m 644 docs/cedr.1 $(TO)/share/man/man1/cedr.1
	install -D -m 644 completion/cedr.bash $(TO)/share/bash-completion/completions/cedr
	for tool in cedr-explain cedr-plan; do ln -sf cedr $(TO)/share/bash-completion/completions/$$tool; done
	install -D -m 644 completion/_cedr $(TO)/share/zsh/site-functions/_cedr

uninstall:
	rm -f $(TO)/bin/cedr $(TO)/bin/cedr_keys $(addprefix $(TO)/bin/,$(TOOLS)) $(TO)/share/man/man1/cedr.1
	rm -f $(addprefix $(TO)/share/bash-completion/completions/,cedr cedr-explain cedr-plan)
	rm -f $(TO)/share/zsh/site-functions/_cedr
	rm -rf $(TO)/share/cedr $(TO)/share/doc/cedr

test:
	.ci/run

.PHONY: help build install uninstall test
