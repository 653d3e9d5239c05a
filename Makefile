# What README asks for. PREFIX says where it is installed, DESTDIR is put before that.
PREFIX = /usr/local
DESTDIR =
PROGRAM = crates/satcluster/out/satcluster
FORMULA = $(CURDIR)/examples/pigeons_6.cnf

# Proves the program with all that it stands on, and builds it.
all:
	@echo "proves the program and builds it: half an hour to an hour on four cores" >&2
	cd crates/satcluster && rm -f out/PROVED && rt run --jobs $$(nproc) -- --version
	@{ git diff --quiet HEAD && git rev-parse HEAD || echo unknown; rt version; echo logic=proved; \
	sha256sum < $(PROGRAM) | cut -d ' ' -f 1; } > crates/satcluster/out/PROVED

# Decides a formula and checks the proof by the program as it stands, which is not proved yet.
try:
	@echo "builds the program without a proof: two or three minutes" >&2
	@t=$$(mktemp -d) && trap 'rm -r "$$t"' EXIT && mkdir $$t/runs && cd $$t/runs && \
	touch 1-decide 2-check && \
	printf '%s\n' decide "$(FORMULA)" $$t/f.lrat > 1-decide.args && \
	printf '%s\n' check "$(FORMULA)" $$t/f.lrat > 2-check.args && \
	cd "$(CURDIR)/crates/satcluster" && rt try --cases $$t/runs | tee $$t/told && \
	grep -q '^s VERIFIED$$' $$t/told

# Writes docs/dev/READING.md: the main claims with every definition below them.
docs:
	tools/reading.py

# Runs all tests, the proofs from nothing among them: an hour or two.
check:
	.ci/run

install:
	tree=$$(tools/dist.py --tree --ungated $(PROGRAM)) && "$$tree/install.sh" "$(DESTDIR)$(PREFIX)"

uninstall:
	tools/install.sh --remove "$(DESTDIR)$(PREFIX)"

# An archive that runs without the kit, of a program that `make check` has passed.
dist:
	tools/dist.py $(PROGRAM)

.PHONY: all try docs check install uninstall dist
