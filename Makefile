# `make` lists the targets.
PREFIX    = /usr/local
CC        = cc
CFLAGS    = -O2
AR        = ar
PYTHON    = python3
SITE      = examples/site
PORT      = 8080
SERVE     = out/uip
ARCHIVES  = out/libuip_c.a out/libuip_app_c.a out/libuip_both_c.a
PROGRAM   = crates/uipd/out/uipd
LIBRARIES = $(foreach name,uip_c uip_app_c uip_both_c,crates/$(name)/out/lib$(name).a)
STACK     = dist/uip.c dist/uip.h

help:
	@echo "Without the Rattle kit, with a C compiler and Python 3:"
	@echo "  make run [SITE=FOLDER] [PORT=8080]   serves the pages of a folder to a browser; some 5 seconds"
	@echo "  make run-tun [SITE=FOLDER]           the same over Linux's own TCP, at http://10.0.0.1/; needs root"
	@echo "  make test                            the tests that need no kit; some minutes"
	@echo "  make install [PREFIX=/usr/local] [DESTDIR=ROOT]   the C library with its headers and manual pages"
	@echo "  make deb, arduino, platformio, reference          packages of it, and its reference as HTML, into out/"
	@echo "With the kit (its command rt on the path):"
	@echo "  make test                            the whole gate, from nothing one and a half to two hours on four processors"
	@echo "  make build                           proves and builds uipd and the libraries; an hour"
	@echo "  make release                         the archive of a release"

# ---- without the kit

$(SERVE): examples/serve.c $(STACK)
	@mkdir -p out
	@echo "1 of 3  compiling the stack: $(CC) $(CFLAGS) examples/serve.c dist/uip.c -o $(SERVE)"
	@$(CC) $(CFLAGS) examples/serve.c dist/uip.c -o $(SERVE)

answers: $(SERVE)
	@echo "2 of 3  sending it an echo request"
	@$(PYTHON) examples/ping.py $(SERVE) serve - 10.0.0.1

run: answers
	@[ -e "$(SITE)" ] || { echo "make run: there is no $(SITE) (SITE counts from the folder of the Makefile)"; exit 1; }
	@echo "3 of 3  serving $(SITE) to a page that hosts the program: open http://localhost:$(PORT)"
	@$(PYTHON) web/serve.py --port $(PORT) $(SERVE) $(SITE)

run-tun: answers
	@echo "3 of 3  serving $(SITE) over a TUN interface of this machine"
	@$(PYTHON) tools/pack.py $(SITE) out/site.img
	@$(PYTHON) examples/browse.py --host $(SERVE) out/site.img

# One library for each set of calls: those of uip.h, of uip_app.h and of uip_both.h.
out/libuip_c.a:      SET =
out/libuip_app_c.a:  SET = -DUIP_APP
out/libuip_both_c.a: SET = -DUIP_BOTH
$(ARCHIVES): $(STACK)
	@mkdir -p out
	$(CC) $(CFLAGS) $(SET) -ffunction-sections -fdata-sections -c dist/uip.c -o $(@:.a=.o)
	rm -f $@
	$(AR) rcs $@ $(@:.a=.o)

install: $(ARCHIVES)
	@sh packaging/install.sh "$(DESTDIR)" "$(PREFIX)"

deb: $(ARCHIVES)
	@sh packaging/deb.sh out

arduino platformio reference:
	@sh packaging/$@.sh out

# ---- with the kit, or what can be tested without

# The last line is the verdict.
test:
	@if command -v rt >/dev/null; then \
		echo "The gate: proves each crate, tries each edit that must be refused, runs all tests, and then what needs no proof."; \
		echo "From nothing it takes one and a half to two hours on four processors; later only what changed is proved again."; \
		sh .ci/run; status=$$?; \
		if [ $$status = 0 ]; then echo "make test: the gate passed"; else echo "make test: the gate FAILED with status $$status"; fi; exit $$status; \
	else \
		echo "The kit is not here (no command rt on the path), so nothing is proved. What needs no kit is tested, in some minutes."; \
		sh dev/tests.sh; \
	fi

build:
	@command -v rt >/dev/null || { echo "make build needs the kit: its command rt is not on the path. make run needs none."; exit 1; }
	@echo "Proving and building uipd and three libraries: from nothing some 100 processor minutes, or half an hour to an hour on four processors."
	@echo "1 of 4  uipd"; cd crates/uipd && rt run -- --version
	@for name in uip_c uip_app_c uip_both_c; do \
		n=$$(($${n:-1} + 1)); echo "$$n of 4  $$name"; (cd crates/$$name && rt lib) || exit 1; done

release:
	sh release.sh

.PHONY: help answers run run-tun install deb arduino platformio reference test build release
