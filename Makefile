PREFIX ?= /usr/local
PROGRAM = crates/nn_cli/out/nn_cli

.PHONY: all quick demo soak test install clean

all: $(PROGRAM)

# Proves the crates of the program side by side, and builds it.
$(PROGRAM): crates.txt $(shell find crates -path '*/out' -prune -o -name '*.rt' -print -o -name '*.antt' -print)
	sh tools/build.sh

# Tells the story of two name directories in memory before any proof: a first look, in about a minute.
quick:
	sh tools/quick.sh

# Builds the program and runs its main job on folders that it makes in a temporary place.
demo: $(PROGRAM)
	sh tools/demo.sh $(abspath $(PROGRAM))

# Kills the program at random moments of runs over real folders, and checks what is left by a plain reader. RUNS is how many, and
# WORK a folder on the disk to be tried.
RUNS ?= 500
soak: $(PROGRAM)
	python3 tools/rows.py $(abspath $(PROGRAM))
	python3 tools/soak.py $(abspath $(PROGRAM)) --runs $(RUNS) $(if $(WORK),--place $(WORK))

# The whole gate.
test:
	rt ci

install: $(PROGRAM)
	install -d $(DESTDIR)$(PREFIX)/bin
	install -m 755 $(PROGRAM) $(DESTDIR)$(PREFIX)/bin/namenode

clean:
	rm -rf crates/*/out
