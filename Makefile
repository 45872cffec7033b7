# make install: puts the program, its scripts, their pages and their completion under PREFIX, and DESTDIR before that.
# The program is built first, as by any call of bin/gbalink. make deb: makes a Debian package in the folder above.
PREFIX = /usr/local
DESTDIR =
to = $(DESTDIR)$(PREFIX)
scripts = gbalink gbalink-view gbalink-keys gbalink-batch
program = crates/gbalink/out/gbalink
completions = $(to)/share/bash-completion/completions

# A call without words builds the program where it has to be, says how far it is, and is answered by status 2.
build:
	@bash -c 'bin/gbalink 2>&1 >/dev/null | grep --line-buffered -v -e "^usage: " -e "^A name is "; \
	[ $${PIPESTATUS[0]} -eq 2 ]'

install: build
	install -d '$(to)/bin' '$(to)/lib/gbalink' '$(to)/share/gbalink' '$(to)/share/man/man1' '$(to)/share/doc/gbalink'
	install -d '$(completions)' '$(to)/share/zsh/site-functions'
	install -m 755 $(scripts:%=bin/%) '$(to)/bin'
	install -m 755 $(program) '$(to)/lib/gbalink'
	install -m 644 bios/gbalink.s bin/gbalink-view.html '$(to)/share/gbalink'
	install -m 644 $(scripts:%=docs/%.1) '$(to)/share/man/man1'
	install -m 644 README.md docs/*.md '$(to)/share/doc/gbalink'
	install -m 644 completion/gbalink.bash '$(completions)/gbalink'
	cd '$(completions)' && for script in $(scripts:gbalink=); do ln -sf gbalink $$script || exit; done
	install -m 644 completion/_gbalink '$(to)/share/zsh/site-functions'

# Takes away what install has put there, and the folders that are this program's own.
uninstall:
	cd '$(to)' && rm -f $(scripts:%=bin/%) $(scripts:%=share/man/man1/%.1) share/zsh/site-functions/_gbalink
	cd '$(completions)' && rm -f $(scripts)
	cd '$(to)' && rm -rf lib/gbalink share/gbalink share/doc/gbalink

deb:
	dpkg-buildpackage -b -us -uc

.PHONY: build install uninstall deb
