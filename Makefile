# Before anything is proved:
#   make demo                the program on the triangle recording
#   make try FILE=mine.json  the program on a recording; FILES=folder: on each of a folder's, compiled once
#   make quick               the conformance cases, but for the family of the longest
# With proofs:
#   make                     proves everything that the program stands on, links it, leaves it as ./vkray
#   make examples            asks it each recording of examples/ by its word, and compares text and status
#   make conformance         runs all conformance cases through the library's one call
#   make tools               tests the tools of tools/ with the linked program
#   make hostile             refuses each allocation of runs of each word in turn, lets reads and writes fail, and
#                            gives inputs that are cut short or changed
#   make c                   proves the check for programs in C, and builds and runs examples/c, with ./vkray
#   make pages               makes anew what pages say of sources, which the side checks compare
#   make test                the whole gate: every proof from nothing, the wrong bodies, the tests, the cases, the
#                            programs, and then the side checks, which compare pages with sources
# WORDS are what `make try` asks the program for: run, check, queues, groups, certify or verify.
WORDS = run
SOURCES = crates.txt HANDLES $(shell find crates -path '*/out' -prune -o \( -name '*.rt' -o -name '*.antt' \) -print)

.PHONY: all demo try quick examples conformance tools hostile c pages test

all: vkray

vkray: $(SOURCES)
	cd crates/vkray_cli && rt run -- run < ../../examples/triangle.json > /dev/null
	cp crates/vkray_cli/out/vkray_cli vkray

demo:
	cd crates/vkray_cli && rt try -- run < ../../examples/triangle.json

try:
ifdef FILES
	cd crates/vkray_cli && rt try --cases $(abspath $(FILES)) -- $(WORDS)
else
	@test -n "$(FILE)" || { echo "make try FILE=recording.json, or FILES=folder"; exit 1; }
	cd crates/vkray_cli && rt try -- $(WORDS) < $(abspath $(FILE))
endif

quick:
	@families=$$(mktemp -d); trap 'rm -r "$$families"' EXIT; \
	  ln -s $(filter-out %/long,$(wildcard $(CURDIR)/crates/vkray_cases/data/*)) "$$families"; \
	  cd crates/vkray_cases && rt try --seconds 600 -- "$$families"

examples: vkray
	@failed=0; for recording in examples/*.json; do \
	  text="$${recording%.json}.txt"; \
	  case "$$recording" in */two-queues.json) word=queues;; */hit-groups.json) word=groups;; \
	    */certificate.json) word=verify;; *) word=run;; esac; \
	  status=0; if grep -q '^refused ' "$$text"; then status=1; fi; \
	  told="$$(./vkray $$word < "$$recording"; echo "status $$?")"; \
	  wanted="$$(cat "$$text"; echo "status $$status")"; \
	  if [ "$$told" = "$$wanted" ]; then echo "$$recording: as expected"; \
	  else printf '%s: wanted\n%s\nbut got\n%s\n' "$$recording" "$$wanted" "$$told"; failed=1; fi; \
	done; exit $$failed

conformance:
	cd crates/vkray_cases && rt run -- $(CURDIR)/crates/vkray_cases/data

tools: vkray
	tools/test

hostile: vkray
	@cases=0; failed=0; for asked in "run triangle" "run update-after-a-barrier" "run serialized-copy" "check hazard" \
	  "queues two-queues" "groups hit-groups" "certify triangle" "verify certificate" "selfrun 1 1 4"; do \
	  set -- $$asked; if [ "$$1" = selfrun ]; then input=/dev/null; else input="examples/$$2.json"; set -- "$$1"; fi; \
	  cases=$$((cases + 1)); echo "$$asked:"; bench/refusals "$$@" < "$$input" || failed=$$((failed + 1)); \
	done; echo "conformance cases with calls that fail:"; \
	cases=$$((cases + 1)); bench/failures || failed=$$((failed + 1)); \
	echo "inputs that are cut short or changed:"; \
	cases=$$((cases + 1)); bench/changes || failed=$$((failed + 1)); \
	echo "$$cases cases, $$failed failures"; [ "$$failed" = 0 ]

c: vkray
	cd crates/vkray_c && rt lib > /dev/null
	$(CC) -std=c99 -O2 -Iinclude -o crates/vkray_c/out/check examples/c/check.c \
	  crates/vkray_c/out/libvkray_c.a "$$(dirname "$$(rt doc)")/c/liblibc_c.a"
	test "$$(crates/vkray_c/out/check < examples/hazard.json)" = "refused 10 V25 with 8"
	$(CC) -std=c99 -O2 -Iinclude -o crates/vkray_c/out/run examples/c/run.c
	crates/vkray_c/out/run ./vkray examples/triangle.json run | cmp - examples/triangle.txt

pages:
	checks/stands_on.py --write
	checks/rules.py --write
	checks/index.py --write
	checks/headline.py --write
	checks/layers.py --write

test:
	rt ci
	checks/run
