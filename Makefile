# Installs the programs, their pages, the guides and examples, report_json and the completions of their words. It takes the programs
# that the launchers ./fsck_ffs and ./ffs_find would run: those of dist/, and where sources were changed, those that are built of them.
#
#   make check
#   make install PREFIX=/usr/local DESTDIR=
#   make install BINDIR=/usr/local/sbin
#   make uninstall PREFIX=/usr/local DESTDIR=

PREFIX = /usr/local
DESTDIR =
BINDIR = $(PREFIX)/bin
MANDIR = $(PREFIX)/share/man
DOCDIR = $(PREFIX)/share/doc/fsck-ffs
BASHDIR = $(PREFIX)/share/bash-completion/completions
ZSHDIR = $(PREFIX)/share/zsh/site-functions
GUIDES = READING.md PIPELINES.md FORMATS.md RULES.md GLOSSARY.md rescue.sh
EXAMPLES = $(notdir $(wildcard examples/*))

# What make install puts below DESTDIR; the list of it is what make uninstall takes.
INSTALLED = "$(BINDIR)/fsck_ffs" "$(BINDIR)/report_json" "$(MANDIR)/man8/fsck_ffs.8" "$(BASHDIR)/fsck_ffs" "$(ZSHDIR)/_fsck_ffs" \
    "$(BINDIR)/ffs_find" "$(MANDIR)/man8/ffs_find.8" "$(BASHDIR)/ffs_find" "$(ZSHDIR)/_ffs_find" \
    "$(DOCDIR)/CHANGELOG.md" $(GUIDES:%="$(DOCDIR)/%") $(EXAMPLES:%="$(DOCDIR)/examples/%")
LIST = "$(DOCDIR)/INSTALLED" "$(DESTDIR)"

all:
	@tools/program >/dev/null
	@tools/program --name ffs_find >/dev/null

# The images of examples/, each with its report and its status: without Rattle's kit, and nothing is built.
check:
	@tools/check_examples

install: all
	install -d "$(DESTDIR)$(BINDIR)" "$(DESTDIR)$(MANDIR)/man8" "$(DESTDIR)$(DOCDIR)/examples" "$(DESTDIR)$(BASHDIR)" "$(DESTDIR)$(ZSHDIR)"
	install -m 755 "$$(tools/program)" "$(DESTDIR)$(BINDIR)/fsck_ffs"
	install -m 755 "$$(tools/program --name ffs_find)" "$(DESTDIR)$(BINDIR)/ffs_find"
	install -m 755 tools/report_json "$(DESTDIR)$(BINDIR)/"
	install -m 644 fsck_ffs.8 ffs_find.8 "$(DESTDIR)$(MANDIR)/man8/"
	install -m 644 CHANGELOG.md $(GUIDES:%=docs/%) "$(DESTDIR)$(DOCDIR)/"
	install -m 644 examples/* "$(DESTDIR)$(DOCDIR)/examples/"
	install -m 644 completion/fsck_ffs.bash "$(DESTDIR)$(BASHDIR)/fsck_ffs"
	install -m 644 completion/ffs_find.bash "$(DESTDIR)$(BASHDIR)/ffs_find"
	install -m 644 completion/_fsck_ffs completion/_ffs_find "$(DESTDIR)$(ZSHDIR)/"
	@tools/installed record $(LIST) $(INSTALLED)

# It leaves each file that isn't the one that was installed, and takes nothing where there is no list.
uninstall:
	@tools/installed remove $(LIST)
	-rmdir "$(DESTDIR)$(DOCDIR)/examples" "$(DESTDIR)$(DOCDIR)"

.PHONY: all check install uninstall
