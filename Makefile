# Installs the program that `bash .ci/run` has proved, with its manual page and its completions for bash and zsh.
# It refuses where there is no such program, or a source has changed since, as ./pdl decides that.
PREFIX = /usr/local
DESTDIR =
top = $(DESTDIR)$(PREFIX)
programs = $(top)/bin
manuals = $(top)/share/man/man1
for_bash = $(top)/share/bash-completion/completions
for_zsh = $(top)/share/zsh/site-functions

.PHONY: help proved install uninstall

help:
	@echo "make install [PREFIX=$(PREFIX)] [DESTDIR=]    installs the proved program, its manual page and its completions"
	@echo "make uninstall [PREFIX=$(PREFIX)] [DESTDIR=]  removes them"
	@echo "bash .ci/run proves the program; bash .ci/quick tries one that is not proved"

proved:
	@[ -x crates/pdl/out/pdl ] || { echo "make: there is no proved program; bash .ci/run makes it" >&2; exit 1; }
	@bash -c 'source ./pdl && is_fresh "$$proved"' || \
		{ echo "make: a source has changed since the program was proved; bash .ci/run proves it again" >&2; exit 1; }

install: proved
	mkdir -p "$(programs)" "$(manuals)" "$(for_bash)" "$(for_zsh)"
	install -m 755 crates/pdl/out/pdl "$(programs)/pdl"
	install -m 644 install/pdl.1 "$(manuals)/pdl.1"
	install -m 644 install/pdl.bash "$(for_bash)/pdl"
	install -m 644 install/_pdl "$(for_zsh)/_pdl"

uninstall:
	rm -f "$(programs)/pdl" "$(manuals)/pdl.1" "$(for_bash)/pdl" "$(for_zsh)/_pdl"
