# What there is to do here: `make help` lists it, and `make` does all that it lists as checks. Only what proves something needs rt, the command
# of the Rattle toolchain: build, ci, layout and wrong-bodies, and all that needs the built program where that isn't built yet.
PREFIX = /usr/local
ZSH_FUNCTIONS = $(PREFIX)/share/zsh/site-functions
# The scripts that are installed, each as the command polylab-NAME; those of dev/ are for this checkout.
COMMANDS = answer check_packings convert count_packings draw_packings explain invent join one_of_each page parts pieces run session slices slurm_array studio unique
# What these read from beside them.
PARTS = burrtools.py cells.py classes.py colours.py copies.py covers.py drawing.py frame.py numbering.py packings.py polylab.py puzzles.py searched.py snapshots.py solids.py texts.py times.py up_to.py \
	page.css page_common.js page_packings.js page_search.js page_solid.js page_turn.js \
	faults.py files.py fitting.py pictures.py polycubes.py shares.py sheets.py sliced.py ways.py \
	studio_desk.py studio_files.py studio_puzzle.py studio_runs.py studio_search.py studio_server.py studio.css studio.html studio_link.html \
	studio.js studio_address.js studio_files.js studio_grid.js studio_lines.js studio_link.js studio_pieces.js studio_search.js studio_solid.js studio_text.js
SHARE = $(DESTDIR)$(PREFIX)/share
LIB = $(DESTDIR)$(PREFIX)/lib/polylab
# What behind the gate is --all-there: a crate whose tests aren't built is then a fault, and else skipped.
ALL_THERE =
# The program that is installed.
PROGRAM = crates/polylab/out/polylab
# What the build wrote of it: its sources, and the revision that --version tells.
BUILT = crates/polylab/out/built

# The puzzles and cover texts of examples/ that take seconds; the others take up to some minutes each.
QUICK = two-dominoes optional soma-cube soma-without-centre tetracubes-2x2x8 tetracubes-2x4x4 tetracubes-two-handed-2x4x4 pentominoes-20x3 \
	pentominoes-scott five-pentominoes-5x5 slothouber-graatsma slothouber-graatsma-copies dominoes-6x6 y-pentominoes-10x5 \
	two-sets-of-tetrominoes-8x5 two-sets-of-tetrominoes-10x4 none-to-two-tetrominoes-5x4 solid-pentominoes-2x3x10
# Puzzles and cover texts that are also searched by workers.
SHARED = puzzles/two-dominoes puzzles/soma-cube puzzles/pentominoes-20x3 puzzles/slothouber-graatsma-copies covers/small covers/langford-10 covers/domino-8x6
QUICK_COVERS = small secondary soma-cube pent-20x3 langford-10 permutations-09 domino-8x6 queens-8 latin-4 sudoku
LONG = pentominoes-15x4 pentominoes-12x5 pentominoes-10x6 pentominoes-8x8-without-corners dudeney \
	solid-pentominoes-2x5x6 solid-pentominoes-3x4x5 soma-two-handed conway y-pentominoes-5x5x5
LONG_COVERS = pent-10x6 langford-12
# Puzzles whose first packing comes at once, and whose count nobody waits for.
FIRST = first/bricks-6x6x6

CHECKS_OF_TEXTS = check-names check-lemmas check-edits check-waiting check-sentences check-theorem check-clauses check-ownership \
	check-jobs check-scripts check-units

.PHONY: all quick help scripts build ci layout theorem wrong-bodies bench install uninstall dist gallery gallery-long $(CHECKS_OF_TEXTS) check-frame check-install \
	check-dist check-tools check-texts check-refused check-rows check-up-to check-cache counts check-sessions check-parts check-docs check-words check-completions \
	check-page check-studio check-statuses check-memory check-memory-all

# All that follows but gallery-long, check-memory-all, bench, ci and wrong-bodies: some ten minutes once the program is built.
all: $(CHECKS_OF_TEXTS) check-frame check-install check-dist build gallery check-tools check-texts check-refused check-rows check-up-to check-cache counts check-sessions \
	check-parts check-docs check-words check-completions check-page check-studio check-statuses check-memory

# The checks that a landing has to pass after the gate: some three minutes once the program is built. Without check-edits while records are
# due of wrong bodies that are tried beside the gate (docs/GATE.md).
quick: $(filter-out check-edits,$(CHECKS_OF_TEXTS)) check-install build gallery check-refused check-rows check-up-to check-cache counts check-sessions check-docs \
	check-words check-statuses check-memory

# This list.
# (A line `##` is a heading; of the comment above a target the first line is shown.)
help:
	@awk '/^## / { printf "\n%s\n", substr($$0, 4); next } /^# / { if (!said) said = substr($$0, 3); next } \
		/^[a-z-]+:/ { name = $$1; sub(/:.*/, "", name); if (said) printf "  %-18s %s\n", name, said } { said = "" }' Makefile

# Each script of tools/, dev/ and bench/, with what it is for.
scripts:
	@dev/do check_scripts --list

## The program

# Proves and builds the program where anything changed: 20 to 30 minutes the first time on four processors.
build:
	./polylab --version

# Puts the program, its scripts, man pages, completions, examples and documents below PREFIX, /usr/local where it isn't set.
install: build
	mkdir -p "$(DESTDIR)$(PREFIX)/bin" "$(LIB)" "$(SHARE)/man/man1" "$(SHARE)/bash-completion/completions" "$(DESTDIR)$(ZSH_FUNCTIONS)" \
		"$(SHARE)/fish/vendor_completions.d" "$(SHARE)/doc/polylab" "$(SHARE)/polylab/tools"
	cp "$(PROGRAM)" "$(LIB)/polylab"
	cp "$(BUILT)" "$(LIB)/built"
	cp tools/given.sh "$(LIB)/given.sh"
	cp tools/installed.sh "$(DESTDIR)$(PREFIX)/bin/polylab"
	cp docs/polylab.1 "$(SHARE)/man/man1/polylab.1"
	cp completions/polylab.bash "$(SHARE)/bash-completion/completions/polylab"
	cp completions/_polylab "$(DESTDIR)$(ZSH_FUNCTIONS)/_polylab"
	cp completions/polylab.fish "$(SHARE)/fish/vendor_completions.d/polylab.fish"
	dev/do install_docs "$(SHARE)/doc/polylab" $(COMMANDS)
	for tool in $(COMMANDS) $(PARTS); do cp "tools/$$tool" "$(SHARE)/polylab/tools" || exit 1; done
	for tool in $(COMMANDS); do name=polylab-$$(echo "$$tool" | tr _ -); \
		ln -sf "../share/polylab/tools/$$tool" "$(DESTDIR)$(PREFIX)/bin/$$name" && \
		ln -sf polylab "$(SHARE)/bash-completion/completions/$$name" && \
		ln -sf polylab.fish "$(SHARE)/fish/vendor_completions.d/$$name.fish" || exit 1; done
	dev/do install_man "$(DESTDIR)$(PREFIX)/bin" "$(SHARE)/man/man1"

# Takes away what install put below PREFIX.
uninstall:
	for name in polylab $(COMMANDS:%=polylab-%); do name=$$(echo "$$name" | tr _ -); \
		rm -f "$(DESTDIR)$(PREFIX)/bin/$$name" "$(SHARE)/man/man1/$$name.1" "$(SHARE)/bash-completion/completions/$$name" \
		"$(SHARE)/fish/vendor_completions.d/$$name.fish"; done
	rm -f "$(DESTDIR)$(ZSH_FUNCTIONS)/_polylab"
	rm -rf "$(SHARE)/doc/polylab" "$(SHARE)/polylab" "$(LIB)"

# Packs a checkout without changes into dist/: a tar file and a Debian package, with checksums.
dist: build
	@dev/do make_dist

# Measures the program beside a plain C program on ten texts: many minutes, and the machine has to be idle.
bench: build
	bench/compare 3

## Proofs

# The gate: every proof that isn't kept on this machine, the wrong bodies of must-fail, tests, the program (docs/GATE.md).
ci:
	rt ci

# Lays out each crate's files as the gate wants them: half a minute.
layout:
	@for crate in crates/*; do (cd "$$crate" && rt fmt) || exit 1; done

# Makes the pages of docs/theorem, one a command, from the specifications, and docs/SENTENCES.md: seconds.
theorem:
	@dev/do theorem
	@dev/do sentences

# Tries the other wrong bodies: some 50 minutes of one processor. CRATES="NAME .." tries those of some crates alone.
wrong-bodies:
	@dev/do wrong_bodies --lanes 3 $(CRATES)

## Checks of the tree's texts, which need no program: seconds each

# Each word is defined in one crate; dev/names.txt has those of two, with a reason.
check-names:
	@dev/do check_names

# Each lemma is used by a proof, an example or a definition.
check-lemmas:
	@dev/do check_lemmas

# Each wrong body can be made, and those of wrong-bodies were refused over the texts as they are.
# And the sentences of a check are read as they are meant.
check-edits:
	@dev/do check_verdicts
	@dev/do check_edits

# The functions of the program that may wait for ever stand in dev/waiting.txt, with a reason, and no other.
check-waiting:
	@dev/do check_waiting

# What the documents say of names, clauses, numbers and crates is the tree's.
check-sentences:
	@dev/do check_sentences

# The pages of docs/theorem, and docs/SENTENCES.md, are those that `make theorem` makes of the tree.
check-theorem:
	@dev/do theorem --check
	@dev/do sentences --check

# An equation says what a public clause claims to be there, or dev/clauses.txt has a body that doesn't meet the clause.
check-clauses:
	@dev/do check_clauses

# What owns the raw block has no Drop: one, written or derived, would drop the block's owner, and leak the block.
check-ownership:
	@! grep -n 'Drop' crates/cover_links/src/raw.rt

# The command that takes files and the completions have the jobs and options of dev/jobs.txt, and so has the man page; dev/do jobs writes the former.
check-jobs:
	@dev/do jobs --check

# Each script tells its use, and shellcheck, pyflakes and node, where they are here, find nothing in it: ten seconds.
check-scripts:
	@dev/do check_scripts

# The modules of tools/, and some of dev/, answer what was worked out by hand (dev/units): seconds.
check-units:
	@dev/do check_units

## Checks of the scripts and documents

# Help, version and wrong words of each script that is installed, texts from files and standard input, broken texts: half a minute.
check-frame:
	@dev/do check_frame

# What is installed works in a folder that is then moved, and nothing of it is left behind: half a minute.
check-install:
	@dev/do check_install

# The packages work where they are unpacked, made of stand-ins for the program: ten seconds.
check-dist:
	@dev/do check_dist

# bash, fish and zsh, where they are here, offer the words that they should.
check-completions:
	@dev/do check_completions

# Packings, puzzles and sessions go through the scripts, and what is spoilt is found: a minute.
check-tools: build
	@dev/do check_tools
	@dev/do check_explain
	@dev/do check_convert
	@dev/do check_pieces

# Counts in parts and in slices add up, also after a kill and an interrupt; spoilt folders of parts are refused: a minute.
check-parts: build
	@dev/do check_parts
	@dev/do check_runs

# Pages of packings and of sessions, in headless Chromium where it is here, show what they should: minutes.
check-page: build
	@dev/do check_page

# The studio refuses whoever isn't its page, and a newcomer's steps in headless Chromium, where it is here, come to 240 Soma cubes: minutes.
check-studio: build
	@dev/do check_studio

# Each command line that a document shows prints what is shown there: a minute.
check-docs: build
	@dev/do check_docs README.md docs/RECIPES.md docs/TUTORIAL.md docs/DEBUGGER.md docs/polylab.1

# dev/jobs.txt names the jobs and options that the program's help names; the examples of the help and of the man page print what is shown.
check-words: build
	@dev/do check_words

## Checks of the program

# The examples have the counts that are known of them (NAME.expect), also by 2 and 8 workers and by both tables: half a minute.
gallery: build
	@dev/do gallery $(QUICK:%=puzzles/%) $(QUICK_COVERS:%=covers/%)
	@WORKERS=2 dev/do gallery $(SHARED)
	@WORKERS=8 dev/do gallery $(SHARED)
	@for table in links bits; do TABLE=$$table dev/do gallery $(SHARED) || exit 1; WORKERS=2 TABLE=$$table dev/do gallery $(SHARED) || exit 1; done
	@dev/do gallery $(FIRST)

# The examples that take up to some minutes each.
gallery-long: build
	@dev/do gallery $(LONG:%=puzzles/%) $(LONG_COVERS:%=covers/%)

# Of random texts, many with faults, the program tells the first fault that the scripts read, and has as many options: seconds.
check-texts: build
	@dev/do check_texts

# Puzzle texts are refused (dev/refused.txt), each with the fault and the line that were worked out by hand.
check-refused: build
	@dev/do check_refused

# Texts whose output, error line and status are known byte for byte (dev/rows), and some that are made: some 2,700 runs, seconds.
check-rows: build
	@dev/do check_rows

# Of puzzles drawn at random what is counted and shown up to symmetry is what is found by trying all, and by --classes: ten seconds.
# PUZZLES=2000 draws that many.
check-up-to: build
	@dev/do check_up_to $(PUZZLES)

# Of texts drawn at random the program counts the same with a cache and without: ten seconds.
check-cache: build
	@dev/do check_cache $(PUZZLES)

# The counts to cite of examples/counts, each in two ways: a minute. With COUNTS=--long those too that take longer.
counts: build
	@dev/do counts $(COUNTS)

# Sessions of the debugger are answered as was worked out by hand, and drawn ones, with pools among them, agree: seconds.
check-sessions: build
	@dev/do check_sessions

# Each exit status, by a run that ends with it.
check-statuses: build
	@dev/do check_statuses

# A run to which a growth of memory is refused answers whole, or ends with status 4: a sample of growths, half a minute.
# And each growth of single calls of the libraries, by the tests that the gate built: a refused call changes nothing, and is then made again.
check-memory: build
	@dev/do refuse
	@dev/do check_memory $(ALL_THERE)

# The same of each growth of each job: some minutes.
check-memory-all: build
	@dev/do refuse --all
	@dev/do check_memory $(ALL_THERE)
