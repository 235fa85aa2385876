# ldv and its tools, for the command make. README has the two commands that need no make: ./ldv and rt ci.
#
#   make              the program, as ./ldv proves and builds it
#   make check        the gate: proofs, wrong bodies, tests, cases, the real program, documents and tools
#   make install      the program, the tools as ldv-NAME, the manual page, completions and documents
#   make uninstall    takes these away again
#   make dist         the archives of this commit in dist/, with the verdicts of the build (tools/release.py)
#   make clean        removes dist/ and the program, and no proof
#
# PREFIX and DESTDIR say where it is installed. LOG names logs of `rt ci` that have verdicts. LDV_PROGRAM is a
# program to take as it is, in place of the one that is built here.
PREFIX = /usr/local
DESTDIR =
LOG =
LDV_PROGRAM =
PYTHON = python3

RELEASE = $(PYTHON) tools/release.py
GIVEN = $(if $(LDV_PROGRAM),--program '$(LDV_PROGRAM)')
PLACE = --prefix '$(PREFIX)' --destdir '$(DESTDIR)'

.PHONY: all check install uninstall dist clean

all:
	@test -n '$(LDV_PROGRAM)' || ./ldv run < examples/hello.json > /dev/null

check:
	.ci/run

install: all
	$(RELEASE) install $(PLACE) $(GIVEN)

uninstall:
	$(RELEASE) uninstall $(PLACE)

dist: all
	$(RELEASE) dist $(GIVEN) $(foreach log,$(LOG),--log '$(log)')

clean:
	rm -rf dist crates/ldv/out/ldv crates/ldv/out/ldv.mark crates/ldv/out/ldv.list crates/ldv/out/logs
	find . -name __pycache__ -prune -exec rm -rf {} +
