# The commands of this repository. `make` lists them.

PROGRAM = crates/profhouse/out/profhouse
# Where it is installed, below DESTDIR. (Packagers give one of the first two, as prefix=/usr.)
PREFIX = /usr/local
prefix = $(PREFIX)
bindir = $(prefix)/bin
datadir = $(prefix)/share
mandir = $(datadir)/man
docdir = $(datadir)/doc/profhouse
DESTDIR =
# What takes the symbols away; STRIP=: leaves them, as for packages that have them apart.
STRIP = strip
SCRIPTS = folded fleet hostile http import reading reports rows run store total versions

# The scripts that are called. Each is on the path with profhouse- in front: profhouse_history is profhouse-history there.
TOOLS = backup_store fail_if_costlier fleet_ask fleet_load fleet_nodes markdown_difference profhouse_history profhouse_remote \
	profhouse_web same_paths to_callgrind
COMMAND = profhouse-$(subst _,-,$(patsubst profhouse_%,%,$(1)))
READ = README.md CHANGELOG.md SECURITY.md LICENSE-APACHE LICENSE-MIT $(wildcard docs/*.md docs/*.svg docs/pictures/*.png)
START_FROM = github.yml gitlab.yml profhouse-backup.service profhouse-backup.timer profhouse.service

# What is installed: the mode, the file here, and its place.
FILES = 755:$(PROGRAM):$(bindir)/profhouse \
	644:share/man/man1/profhouse.1:$(mandir)/man1/profhouse.1 \
	644:share/completions/profhouse.bash:$(datadir)/bash-completion/completions/profhouse \
	644:share/completions/_profhouse:$(datadir)/zsh/site-functions/_profhouse \
	644:share/completions/profhouse.fish:$(datadir)/fish/vendor_completions.d/profhouse.fish \
	$(foreach it,$(TOOLS),755:share/scripts/$(it):$(datadir)/profhouse/$(it)) \
	$(foreach it,$(wildcard share/scripts/*.py),644:$(it):$(datadir)/profhouse/$(notdir $(it))) \
	$(foreach it,$(wildcard share/web/*),644:$(it):$(datadir)/profhouse/web/$(notdir $(it))) \
	$(foreach it,$(READ),644:$(it):$(docdir)/$(it)) \
	$(foreach it,$(START_FROM),644:share/examples/$(it):$(docdir)/examples/$(it)) \
	755:share/examples/bisect_run:$(docdir)/examples/bisect_run \
	$(foreach it,$(wildcard examples/*),644:$(it):$(docdir)/$(it))

.PHONY: help build test gate bench install uninstall

help:
	@echo 'make build      proves and builds $(PROGRAM), where its sources have changed; needs rt'
	@echo 'make test       builds, and runs the tests that need only the program; needs curl'
	@echo 'make gate       runs all that CI runs, every proof from nothing; needs rt, git, gcc and curl'
	@echo 'make bench      builds, and lists the benchmarks'
	@echo 'make install    copies the built program, scripts, page, manual pages, completions and docs to PREFIX ($(PREFIX)), below DESTDIR'
	@echo 'make uninstall  removes these files'

build:
	@PROFHOUSE_BUILD_ONLY=1 ./profhouse

test: build
	tests/run_stored
	tests/http
	tests/sockets
	tests/web_server
	tests/web
	tests/readme
	tests/words_of_help
	tests/terminal
	tests/scripts
	tests/hostile_words

gate:
	tests/gate

bench: build
	@for it in $(SCRIPTS); do sed -n '/Usage: /{s/.*Usage: //;s/   .*//;p;q;}' bench/$$it; done
	@echo 'bench/README.md says what each shows and needs.'

# (it builds nothing: as root, the files of the build would belong to root)
install:
	@test -x $(PROGRAM) || { echo 'there is no program $(PROGRAM): make build first' >&2; exit 1; }
	@for it in $(FILES); do \
		to="$(DESTDIR)$${it##*:}" from=$${it#*:}; \
		install -D -m "$${it%%:*}" "$${from%:*}" "$$to" && echo "$$to" || exit 1; \
	done
	@$(STRIP) "$(DESTDIR)$(bindir)/profhouse"
	@for it in $(foreach it,$(TOOLS),$(it):$(call COMMAND,$(it))); do \
		to="$(DESTDIR)$(bindir)/$${it#*:}"; \
		ln -srf "$(DESTDIR)$(datadir)/profhouse/$${it%:*}" "$$to" && echo "$$to" || exit 1; \
	done
	@scripts/man_pages "$(DESTDIR)$(mandir)/man1"

uninstall:
	@for it in $(FILES); do rm -f "$(DESTDIR)$${it##*:}"; done
	@for it in $(foreach it,$(TOOLS),$(call COMMAND,$(it))); do rm -f "$(DESTDIR)$(bindir)/$$it" "$(DESTDIR)$(mandir)/man1/$$it.1"; done
	@rmdir "$(DESTDIR)$(datadir)/profhouse/web" "$(DESTDIR)$(datadir)/profhouse" "$(DESTDIR)$(docdir)/docs/pictures" "$(DESTDIR)$(docdir)/docs" \
		"$(DESTDIR)$(docdir)/examples" "$(DESTDIR)$(docdir)" 2>/dev/null || true
