# `make help` prints one line for each target, from the comments after `##`.
.PHONY: demo help test quick bin bench load mutants gate-cost stress shortage power failing soak clients examples install uninstall deb package-test

# Runs the proved program if bin/ has it, and otherwise one that is compiled with checks.
demo: ## serves a new store twice, with each frame and byte explained (1 to 2 minutes)
	./demo/run

help: ## prints this list
	@awk '/^[a-z][a-z -]*:.* ## / { name = $$0; sub(/:.*/, "", name); sub(/.* ## /, ""); printf "%-18s %s\n", name, $$0 }' Makefile

# Also runs a round of stress and shortage, and the tests of the clients.
test: ## the gate: every proof, named mutant, test and stored run, from nothing (35 to 125 minutes)
	.ci/run

quick: ## the tests and the shortest scripts, checked and not proved (3 to 5 minutes)
	.ci/quick

bin: ## proves the programs and leaves them in bin/ (up to 40 minutes)
	.ci/bin

mutants: ## tries every mutant, or with CRATES="NAME .." those of some crates; each has to be refused
	.ci/mutants $(CRATES)

# Nothing else may run on the machine meanwhile.
gate-cost: ## what the gate costs, as a multiple of one crate's check; takes as long as the gate
	.ci/cost

bench: ## costs of calls, messages, deaths, batches, openings and checkpoints; proves its program first
	@folder=$$(mktemp -d) && (cd crates/bench && rt run -- "$$folder") && rm -r "$$folder"

# ROUNDS=N sets how often the server is measured interleaved with Redis (3). docs/draw-load draws that table.
load: ## calls a second of a server on a socket, and costs of waiting; with REDIS=1 interleaved with Redis
	@[ -z "$(REDIS)" ] || demo/load-redis --check
	.ci/bin machipcd
	@demo/load
	@[ -n "$(REDIS)" ] || demo/waiting

stress: bin ## random calls to servers that are killed, waiting clients, idle connections; compared with a model
	@stress/run
	@stress/waiting
	@stress/idle

# Needs a C compiler.
shortage: bin ## refuses each allocation of a server and of the lister in turn (4 minutes)
	@stress/shortage

# Needs a C compiler, and root on Linux.
power: bin ## 1,000 losses of power on each file system (an hour); with SHORT=1 two minutes
	@stress/power $(if $(SHORT),--short)

# Needs a C compiler, and root for all of it.
failing: bin ## disks that fail, hang, fill up and can't be written to; with SHORT=1 shorter
	@stress/failing $(if $(SHORT),--short)

soak: bin ## servers under load for HOURS=N (1), killed and without power at times
	@stress/soak $(or $(HOURS),1)

clients: ## the tests of the clients, against bin/ or a stand-in
	@clients/test

# Fetches the Mach Interface Generator with apt-get if it isn't installed.
examples: bin ## programs that use the clients, for a minute while their server is killed once a second
	@examples/run

# Proves the programs only if bin/ lacks one. contrib/install says what else can be set.
install uninstall: ## installs or removes programs, clients, manual and unit below PREFIX (/usr/local)
	@contrib/install $@

deb: ## makes a package of Debian in this folder
	@contrib/deb

package-test: ## installs, kills, upgrades and removes that package in a fresh root; as root, on Debian
	@contrib/test-package
