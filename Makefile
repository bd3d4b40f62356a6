# What a newcomer needs: `make demo` shows a trace as a conversation, `make serve` starts the
# server, `make build` makes the proved programs, `make clients` runs real clients against the
# server, `make hostile` sends it hostile datagrams, refuses memory and does to the programs what a
# system may do, `make soak` judges its answers under mixed load, `make judges` finds out which
# faults these scripts notice, `make cases` compares random traces with a directory of their own,
# `make planted` plants faults in that, `make unit` starts the unit of systemd in a container, `make
# examples` runs all stored cases, the examples among them, `make bench` measures what calls, a
# replay and the server cost, `make test` is the gate, `make edits` tries all edits that the prover
# must refuse, those that the gate leaves out among them.
PROGRAMS = rd_serve rd_host rd_replay rd_show rd_capture rd_commission rd_install rd_rows

# The numbers of workers with which `make clients` runs the server.
WORKERS = 1 4

# The seconds of `make soak`, and the number that `make hostile`, `make soak`, `make cases` and
# `make planted` begin with: a run of the same number sends the same.
SECONDS = 600
SEED = 1

# The random traces of `make cases`.
COUNT = 10000

# How many checks of the gate run side by side: one a processor, as long as there are 4.5 GB for
# each. Without this word `rt ci` plans three times the memory that its checks take, and waits.
LANES = $(shell awk -v most="$$(nproc)" '/^MemAvailable:/ { n = int($$2 / 4500000); \
	print n < 1 ? 1 : n < most ? n : most }' /proc/meminfo)

.PHONY: demo serve build clients hostile soak judges cases planted unit examples bench edits test

demo:
	@echo "examples/lookup.trace, a recorded trace, with the directory's answers (the first run takes"
	@echo "one to four minutes):"; echo
	@cd crates/rd_show && rt try < ../../examples/lookup.trace > out.demo 2> out.demo.log \
		|| { cat out.demo out.demo.log; rm -f out.demo out.demo.log; exit 1; }
	@sed '/^checked: /d; /^races: /d; /^run=/d; s/^/    /' crates/rd_show/out.demo
	@rm -f crates/rd_show/out.demo crates/rd_show/out.demo.log

serve:
	@echo "The server listens on coap://127.0.0.1 until you press ctrl-c. Query it in another terminal"
	@echo "with libcoap's client, in Debian coap-client-notls of libcoap3-bin:"
	@echo "    coap-client-notls 'coap://127.0.0.1/.well-known/core'"
	@echo "    coap-client-notls -m post -t 40 -e '</temp>;rt=\"temperature\"' \
'coap://127.0.0.1/rd?ep=node1'"
	@echo "    coap-client-notls 'coap://127.0.0.1/rd-lookup/res?rt=temperature'"
	@if [ -x bin/rd_serve ] && [ -z "$$(find crates -path '*/src/*' -newer bin/rd_serve)" ]; then \
			exec bin/rd_serve; \
		fi; \
		echo "This is a build with run-time checks, which starts in one to four minutes; \
'make build' makes the proved one."; \
		cd crates/rd_serve && exec rt try --seconds 86400 < /dev/null

build: $(PROGRAMS:%=build-%)

build-%:
	@mkdir -p bin
	@cd crates/$*; input=stdin; { [ -d data ] || [ -f status ]; } && input=/dev/null; \
		rt run -- $$(cat args 2>/dev/null) < $$input > /dev/null
	@cp crates/$*/out/$* bin/ && echo "bin/$*"

clients: build-rd_serve build-rd_commission build-rd_host build-rd_install build-rd_capture \
		build-rd_replay
	@python3 clients/run.py $(WORKERS:%=--workers %) bin/rd_serve

hostile: build-rd_serve build-rd_host build-rd_commission build-rd_replay build-rd_show
	@python3 hostile/run.py --seed $(SEED)
	@python3 hostile/run.py --seed $(SEED) --starve 997
	@python3 hostile/each.py --seed $(SEED)
	@python3 hostile/streams.py --seed $(SEED)
	@python3 hostile/fill.py
	@python3 hostile/shares.py
	@python3 hostile/memory.py
	@python3 hostile/system.py

soak: build-rd_serve
	@python3 hostile/soak.py --seconds $(SECONDS) --seed $(SEED)

judges: build-rd_serve build-rd_commission build-rd_replay
	@python3 hostile/judges.py

cases: build-rd_replay
	@python3 hostile/stored.py
	@python3 hostile/readers.py
	@python3 hostile/cases.py --seed $(SEED) --count $(COUNT)

planted: build-rd_replay
	@python3 hostile/planted.py --seed $(SEED)

unit: build-rd_host
	@packaging/try_unit.sh bin/rd_host

examples: build
	@cd crates/rd_rows/data && ../../../bin/rd_rows < ../stdin
	@python3 examples/pages.py --check bin/rd_show
	@python3 examples/refusals.py
	@python3 docs/check.py

bench: build-rd_serve build-rd_host
	@for program in rd_bench rd_replay; do \
		(cd crates/$$program && rt run -- $$(cat args 2>/dev/null) < stdin > out.bench 2>&1) \
			|| { cat crates/$$program/out.bench; rm -f crates/$$program/out.bench; exit 1; }; \
		rm -f crates/$$program/out.bench; cp crates/$$program/out/$$program bin/; \
	done
	@bin/rd_bench > /dev/null
	@python3 bench/traces.py --table bench/figures/traces.tsv bin/rd_replay
	@python3 bench/plain.py bin/rd_replay
	@python3 bench/calls.py
	@python3 bench/serve.py --table bench/figures/serve.tsv bin/rd_serve bin/rd_host
	@python3 bench/workers.py bin/rd_serve
	@python3 bench/streams.py bin/rd_serve
	@python3 bench/connections.py bin/rd_host
	@python3 bench/memory.py --table bench/figures/memory.tsv
	@python3 bench/plot.py

edits:
	@python3 gate/edits.py

test:
	@RT_JOBS=$(LANES) rt ci; status=$$?; \
		python3 gate/edits.py --check || test $$status -ne 0 || status=1; \
		python3 docs/check.py || test $$status -ne 0 || status=1; exit $$status
