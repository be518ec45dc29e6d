# The script that `run`, `prove` and `try` run.
SCENARIO ?= examples/hello.scenario

# The lines that `trace`, `prove-trace` and `try-trace` answer.
TRACE ?= examples/connection.trace

# How many crates the gate proves side by side: one on each processor, and one for each 6 GiB of memory.
JOBS ?= $(shell awk -v most=$$(nproc) '/MemTotal/ { n = int($$2 / 6291456); print n < 1 ? 1 : n < most ? n : most }' /proc/meminfo)

# How many random scripts `soak` runs, or which, as 21-40, and how many steps each has.
SEEDS ?= 20
STEPS ?= 200

# Said where a program is built without proofs.
UNPROVED = Nothing is proved by this run: the program is built without proofs, in one to two minutes.

.PHONY: run prove try trace prove-trace try-trace test time edits bench memory soak live

# Builds the program without any proof, and runs the script with it: each step, what the endpoints answer, and behind the
# number of a refusal what it says. It takes one to two minutes.
run try:
	@echo "$(UNPROVED)" >&2
	@cd crates/amqp_scenario && ../../tools/with_steps "$(abspath $(SCENARIO))" ../../tools/rt_once try

# The same with each function of the program and of the libraries below it proved first, crate by crate.
prove:
	@cd crates/amqp_scenario && ../../tools/with_steps "$(abspath $(SCENARIO))" ../../tools/by_crate ../../tools/rt_once run

# Builds amqp-trace without any proof, and prints what it says of the lines.
trace try-trace:
	@echo "$(UNPROVED)" >&2
	@cd crates/amqp_trace && ../../tools/rt_once try < "$(abspath $(TRACE))"

# The same, proved first.
prove-trace:
	@cd crates/amqp_trace && ../../tools/by_crate ../../tools/rt_once run < "$(abspath $(TRACE))"

# Every proof, edit that must fail, test and program, from nothing: `rt ci`, which asks each library once for what is below
# it. Without RT_JOBS rt counts twice the memory that these crates take, and leaves processors idle.
test:
	RT_JOBS=$(JOBS) tools/rt_once ci

# The same, and then what it took of a processor, by crate and kind.
time:
	@tools/proving/gate_time

# The edits that the gate leaves out for time. They take hours; CRATES names those to try.
edits:
	@tools/proving/try_edits $(CRATES)

# Counts the instructions that an endpoint takes, by valgrind. The program is built once, and nothing is proved.
bench:
	@tools/bench

# Proves and builds the program, and runs each script once for each of its requests for memory, with that request refused.
memory: SCENARIO = examples/open_close.scenario examples/long_message.scenario
memory:
	@tools/refuse_memory $(SCENARIO)

# Runs random scripts of two endpoints and of one, and scripts of two whose connection breaks behind each byte, and judges
# what they print. Nothing is proved.
soak:
	@tools/soak "$(SEEDS)" "$(STEPS)"

# Takes the program out of CALLING.md, builds it in a workspace of its own, and runs it against real peers. Nothing is proved.
live:
	@tools/live/live
