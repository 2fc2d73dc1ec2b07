# One rule a cell: `make -f library.mk -j` in the folder that make-library made ready makes all cells on all processors,
# `make -f library.mk .made/7` the seventh cell of the list alone. TECH, SPICE, PROGRAM, WORDS, FIRST (the words without
# `--low`), TERMINAL and LIMIT, the seconds that a cell may take, come from the environment. Each of the two lists of words
# ends with `--trails`, or neither has it.
COUNT := $(shell wc -l < cells)

all: $(addprefix .made/,$(shell seq $(COUNT)))

# A cell is made again where the inputs are newer than its line in the table. What an earlier run made of it is removed
# first, so that no file of a cell that is refused now is left. A cell whose lowest row takes too long (without LIMIT
# 300 seconds), or too much memory, gets its first row. One that trails do not make, for such a reason or since the search
# is left open, is made by its log.
# A cell whose trunks are above each other in a cycle is made with `--dogleg`, and with `--low` if the others are; where all
# have `--dogleg`, without it. Where that takes too long, it is made so from its first row. Where that makes no cell either,
# a cell of `--low` keeps the report and the certificate of the call before, which prove more.
.made/%: inputs
	@name=$$(sed -n '$*p' cells); \
	rm -f "$$name.gds" "$$name.lef" "$$name.svg" "$$name.clog" "$$name.ctrail" "$$name.ctrack"; \
	began=$$(date +%s.%N); \
	low=; [ "$$WORDS" = "$$FIRST" ] || low=yes; \
	trails=; case $$WORDS in *--trails) trails=yes ;; esac; \
	run() { if [ "$$limit" = 0 ]; then "$$@"; else timeout "$$limit" "$$@"; fi; }; \
	cell() { run "$$PROGRAM" make "$$TECH" "$$SPICE" "$$name" "$$name" "$$@" > "$$name.txt"; }; \
	is_cut() { [ $$status -eq 124 ] || [ $$status -eq 8 ]; }; \
	no_row() { [ $$status -eq 6 ] && ! grep -q '^fewest ' "$$name.txt"; }; \
	no_lowest() { [ $$status -eq 6 ] && grep -q '^fewest ' "$$name.txt"; }; \
	try() { \
		limit=$${LIMIT:-0}; [ "$$limit" != 0 ] || [ -z "$$low$$trails" ] || limit=300; \
		cell $$WORDS; status=$$?; word=-; \
		[ -n "$$trails" ] || limit=$${LIMIT:-0}; \
		if [ -n "$$low" ] && is_cut; then cell $$FIRST; status=$$?; word=first; fi; \
	}; \
	try; log=; \
	if [ -n "$$trails" ] && { is_cut || no_row; }; then \
		rm -f "$$name.ctrail" "$$name.ctrack"; \
		trails=; WORDS=$${WORDS%--trails}; FIRST=$${FIRST%--trails}; \
		try; log=log+; word=$${log}$$word; word=$${word%+-}; \
	fi; \
	limit=$${LIMIT:-0}; \
	if [ $$status -eq 5 ] || no_lowest; then \
		before=$$status; \
		for kind in txt ctrack; do rm -f .made/$*.$$kind; [ ! -f "$$name.$$kind" ] || mv "$$name.$$kind" .made/$*.$$kind; done; \
		[ "$$limit" != 0 ] || [ -z "$$low" ] || limit=300; \
		case " $$WORDS " in \
			*" --dogleg "*) other=$${WORDS#--dogleg}; first=$${FIRST#--dogleg}; way=whole ;; \
			*) other="--dogleg $$WORDS"; first="--dogleg $$FIRST"; way=--dogleg ;; \
		esac; \
		cell $$other; status=$$?; \
		limit=$${LIMIT:-0}; \
		if [ -n "$$low" ] && is_cut; then cell $$first; status=$$?; fi; \
		if [ -n "$$low" ] && { [ $$status -eq 5 ] || no_lowest || is_cut; }; then \
			rm -f "$$name.ctrack"; status=$$before; \
			for kind in txt ctrack; do [ ! -f .made/$*.$$kind ] || mv .made/$*.$$kind "$$name.$$kind"; done; \
		else \
			rm -f .made/$*.txt .made/$*.ctrack; word=$${log}$$way; \
		fi; \
	fi; \
	seconds=$$(echo "$$began $$(date +%s.%N)" | awk '{ printf "%.2f", $$2 - $$1 }'); \
	awk -v name="$$name" -v status=$$status -v seconds=$$seconds -v word=$$word -v low=$$low -f "$(TOP)/making/row.awk" "$$name.txt" \
		> .made/$*.new; \
	mv .made/$*.new .made/$*; \
	awk -v name="$$name" -v status=$$status -v at=$* -v count=$(COUNT) -v terminal="$$TERMINAL" -f "$(TOP)/making/told.awk" \
		"$(TOP)/making/advice" "$$name.txt"
