# How the program is built, shown, tested, measured and installed.
#
#   make try      the office's application over an invented season of 1,500 children, at an address that it prints, until Ctrl-C; it needs no root and no
#                 proof: bin/admissions if it is there, or a program of which nothing is proved, made in some minutes and kept at out/try. AT=applications:
#                 a file with faults waits; AT=round: a round waits for the second person; AT=march, the default: two weeks after the offers. DIR=.. keeps
#                 the season there; RELOAD=1 begins anew for a changed module
#   make look     the commands of an example, answered by the program at out/try: to see what it is
#   make build    the proved program, at bin/admissions
#   make demo     the examples, run and compared with what they must print
#   make cases    the cases, the same way; they take seconds once the program is built
#   make test     every proof, mutants, tests, examples, cases and the tests of the application and the deployment; its last line is 'N passed, M failed'
#   make reference     the definitions, public functions, clauses, mutants and files, as linked pages and one text, at out/reference; needs python3-jinja2, graphviz
#   make evidence  what an auditor takes away, at out/evidence: each sentence promised, its clauses, what they assume, and verdicts; LOG=.. names logs of `make test`
#                 and `make mutants`; needs git, python3-jinja2, graphviz
#   make check-release  everything else that tests it, one suite after another, going on where it was ended; a table says what each alone finds; as root
#   make mutants  all planted bugs, each of which the proof must reject
#   make sweep    each request of the built program for memory refused, in turn: its answers and files are judged; some minutes
#   make killed-opens  an open after a crash, and opens that are refused, killed at each of their calls to the system; a minute
#   make laws     the rounds of all small problems and of drawn ones by a search over all allocations, what match_runs must print of them, and each law of a
#                 round tried on them; some minutes
#   make audits   admissions-audit on the rounds and fills of 200 random registers, on files changed by hand, and on all allocations of small ones
#   make office   the tests of the application (office/tests) alone, with the built program; needs python3-pytest, python3-pytest-xdist, poppler-utils, and what cases need
#   make races    a restore beside which a program starts at 300 random moments; restore and backup with a program started before each operation, killed, failing, without power; some minutes
#   make costs    what each part of the last `make test` here took; and the CPU seconds of each crate's proof in the last build, with the longest chain of crates
#   make bench    the aims for the costs, beside the measured costs, as one page, which it writes to bench/RESULTS.md; some minutes once the program is built
#   make bench-more  the costs of commands in more tables, beside a baseline in the same run
#   make deploy-check  the deployment (site, desk in its own network), on this machine alone; needs nginx, openssl, curl, sqlite3 and python3-pytest;
#                 test leaves out what hundreds of clients at once see
#   make pictures  the pictures of the pages (docs/pictures), of screens and a letter of an invented season; needs nginx, openssl, python3-selenium, chromium
#                 and chromium-driver
#   make install  the proved program that is at bin/admissions (it builds nothing), the office's tools, their manual pages and completions, and the office's
#                 pages; PREFIX=/usr/local by default, below DESTDIR; deploy/install adds what serves registers (docs/admin/INSTALL.md)
#   make package  the Debian packages of that program, at out/package, with manifest, SBOM and SHA-256; builds them twice, which must give equal bytes; needs
#                 debhelper and lintian
#   make release  the same, and a signed folder from which apt installs them, at out/release; KEY= a file with a secret key or its id; needs apt-utils, gpg too
PREFIX ?= /usr/local
PROGRAM ?= bin/admissions
EXAMPLES := first_path applications season

LOOKED_AT := $(addprefix examples/applications/,schools.jsonl children.jsonl applications.jsonl)

.PHONY: try look build demo cases test check-release reference evidence mutants sweep killed-opens laws audits races costs bench bench-more deploy-check pictures install package release needs-demo needs-cases needs-sweep needs-office office

try:
	@tools/needs try $(PROGRAM)
	@exec tools/try $(if $(AT),--at $(AT)) $(if $(DIR),--dir '$(DIR)') $(if $(RELOAD),--reload) $(PROGRAM)

look:
	@tools/needs look
	@cat $(LOOKED_AT) | tools/look

build:
	@tools/needs build
	tools/build

demo: needs-demo build
	@tools/examples bin/admissions $(EXAMPLES)

cases: needs-cases build
	@tools/cases bin/admissions $(notdir $(wildcard cases/*))

# Checked before a build that takes an hour: what the goal needs after it
needs-demo needs-cases needs-sweep needs-office:
	@tools/needs $(@:needs-%=%)

test:
	@tools/test

check-release:
	@tools/test release

reference:
	@tools/reference

evidence:
	@tools/evidence $(LOG)

mutants:
	tools/mutants

sweep: needs-sweep build
	tools/sweep bin/admissions

killed-opens: build
	tools/killed-opens bin/admissions

office: needs-office build
	tools/python-tests office $(PROGRAM)

laws:
	python3 bench/laws/search.py outcomes | cmp - crates/match_runs/stdout
	python3 bench/laws/search.py laws

audits: build
	bench/audit/run bin/admissions office/command

races: build
	tools/races bin/admissions tools/restore 300
	for tool in restore backup; do for action in start kill fail; do tools/races bin/admissions tools/$$tool $$action || exit 1; done; tools/power-loss bin/admissions tools/$$tool || exit 1; done

costs:
	@tools/costs

bench: build
	cd crates/match_runs && rt run < /dev/null > /dev/null
	bash -o pipefail -c 'bench/aims bin/admissions | tee bench/RESULTS.md'

bench-more: build
	bench/first_path/run bin/admissions
	bench/applications/run bin/admissions
	bench/round/run bin/admissions
	bench/waiting/run bin/admissions
	bench/imports/run bin/admissions
	bench/versions/run bin/admissions
	bench/http/run bin/admissions
	bench/views/run bin/admissions
	bench/larger/run bin/admissions
	bench/match/run.sh

# With bin/admissions as it is there, or another: make deploy-check PROGRAM=.. Or with the files of the package that is installed: make deploy-check INSTALLED=yes
deploy-check:
	deploy/check $(if $(INSTALLED),--installed,$(PROGRAM))

pictures:
	deploy/pictures $(PROGRAM)

install:
	@[ -x $(PROGRAM) ] || { echo "make install: $(PROGRAM) is not there: type make build, or name the program by PROGRAM=" >&2; exit 2; }
	install -D -m 755 $(PROGRAM) $(DESTDIR)$(PREFIX)/bin/admissions
	install -D -m 755 tools/backup $(DESTDIR)$(PREFIX)/bin/admissions-backup
	install -D -m 755 tools/restore $(DESTDIR)$(PREFIX)/bin/admissions-restore
	install -D -m 755 office/command $(DESTDIR)$(PREFIX)/bin/admissions-audit
	install -d $(DESTDIR)$(PREFIX)/share/admissions/office
	cd office && find . -name tests -prune -o '(' -name '*.py' -o -name '*.json' -o -path '*/templates/*' -o -path '*/printed/*' ')' -exec install -D -m 644 {} $(abspath $(DESTDIR)$(PREFIX))/share/admissions/office/{} ';'
	# (the help of the application, beside it as it is here)
	install -D -m 644 docs/office/HANDBOOK.md $(DESTDIR)$(PREFIX)/share/admissions/docs/office/HANDBOOK.md
	install -d $(DESTDIR)$(PREFIX)/share/admissions/docs/pictures
	install -m 644 docs/pictures/*.png $(DESTDIR)$(PREFIX)/share/admissions/docs/pictures
	install -m 644 tools/register_files.py $(DESTDIR)$(PREFIX)/share/admissions/register_files.py
	install -D -m 644 docs/admissions.1 $(DESTDIR)$(PREFIX)/share/man/man1/admissions.1
	install -d $(DESTDIR)$(PREFIX)/share/doc/admissions
	for page in office/START office/HANDBOOK admin/INSTALL admin/OPERATE admin/RECOVER admin/DATA-PROTECTION admin/SECURITY reference/ERRORS reference/FORMATS reference/GLOSSARY; do install -D -m 644 docs/$$page.md $(DESTDIR)$(PREFIX)/share/doc/admissions/$$page.md || exit 1; done
	install -d $(DESTDIR)$(PREFIX)/share/doc/admissions/pictures
	install -m 644 docs/pictures/*.png $(DESTDIR)$(PREFIX)/share/doc/admissions/pictures
	deploy/manuals $(DESTDIR)$(PREFIX)

# From the proved program as it is there, and the commit that is checked out: make package VERDICT=LOG, the log of `make test`, or VERDICT=none
package:
	deploy/package $(if $(VERDICT),--verdict $(VERDICT)) $(PROGRAM)

# As package, signed by the key of KEY, or by that of out/release-key.asc, which is made if it is not there
release:
	@tools/needs release
	deploy/package $(if $(VERDICT),--verdict $(VERDICT)) $(PROGRAM)
	deploy/release $(if $(KEY),--key $(KEY))
