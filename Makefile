# Builds the program, runs it on the shipped examples, installs it, and packs it for Debian.
program := crates/flowvisor/out/flowvisor
# The modules of flowvisor-tool, and those by which it knows what the proxy answers.
packages := flowvisor_tool plain_desk

# Where `make install` puts files; DESTDIR stands before it where a package is made.
PREFIX ?= /usr/local
bin = $(DESTDIR)$(PREFIX)/bin
manual = $(DESTDIR)$(PREFIX)/share/man/man1
completions = $(DESTDIR)$(PREFIX)/share/bash-completion/completions
modules = $(DESTDIR)$(PREFIX)/share/flowvisor/tools

.PHONY: build demo check check-tools check-live install uninstall deb

# Proves and builds where there is no program, or a source is newer than it.
build:
	@test -x $(program) && test -z "$$(find crates crates.txt \( -name out -o -name must-fail \) -prune \
	  -o -type f -newer $(program) -print)" || \
	  (cd crates/flowvisor && rt run -- --version && touch out/flowvisor)
	@echo "the program is $(program)"

demo: build
	@for name in first-packet web-session; do \
	  $(program) replay examples/two-slices.toml examples/$$name.rec > examples/$$name.out && \
	  cat examples/$$name.out && cmp examples/$$name.out examples/$$name.report || exit 1; \
	done
	@cd examples/plain-run && ../../$(program) replay plain-run.toml plain-run.rec | cmp - plain-run.report
	@echo "as it should be"

# The gate: every proof, the edits that must fail, the tests and the runs of programs.
check:
	@rt ci

# Whether what is made of the sources is up to date (docs/layers.svg, docs/DEFINITIONS-INDEX.md), and the tests of
# flowvisor-tool, of the completion, and of the examples of the documents: with the program that FLOWVISOR names, or
# the built one. Where there is none, and no kit to build it, what needs it is left out.
check-tools:
	@if test -z "$$FLOWVISOR" && { test -x $(program) || command -v rt > /dev/null; }; then $(MAKE) -s build; fi
	tools/draw-layers --check
	tools/index-definitions --check
	python3 -m unittest discover -s tools/tests
	tools/try-completion
	@program=$${FLOWVISOR:-$(program)}; if test -x "$$program"; then tools/try-operating "$$program"; \
	else echo "there is no program $$program: the examples, and the tests that compare with it, were left out"; fi

# `serve` with Open vSwitch, controllers of two makes and haproxy, and docs/TUTORIAL.md: with the program that FLOWVISOR
# names, or the built one. It is no part of the gate.
check-live:
	@if test -z "$$FLOWVISOR"; then $(MAKE) -s build; fi
	@tools/check-live "$${FLOWVISOR:-$(program)}"
	@tools/try-operating "$${FLOWVISOR:-$(program)}" docs/TUTORIAL.md

install: build
	install -d "$(bin)" "$(manual)" "$(completions)"
	install -m 755 $(program) tools/flowvisor-tool "$(bin)"
	install -m 644 man/flowvisor.1 man/flowvisor-tool.1 "$(manual)"
	install -m 644 completion/flowvisor.bash "$(completions)/flowvisor"
	ln -sf flowvisor "$(completions)/flowvisor-tool"
	find $(packages:%=tools/%) -name '*.py' | while read -r module; do \
	  install -D -m 644 "$$module" "$(modules)/$${module#tools/}" || exit 1; done

uninstall:
	rm -f "$(bin)/flowvisor" "$(bin)/flowvisor-tool" "$(manual)/flowvisor.1" "$(manual)/flowvisor-tool.1"
	rm -f "$(completions)/flowvisor" "$(completions)/flowvisor-tool"
	rm -rf $(packages:%="$(modules)/%")

# A package for Debian, out/flowvisor_VERSION_ARCHITECTURE.deb.
deb: build
	tools/make-deb out
