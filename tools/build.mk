# How the crates are proved, for tools/build. crates.txt reads as rules of make: each crate, behind those that it uses.
#
# rt locks the crates below the one that it proves. So each is proved in a copy of the sources, a lane, with the libraries that are proved
# by then; what is made there comes into the crate's own out/. A free lane is out/lanes/.freeN, and one in use out/lanes/NAME. The crates
# of tests are no part of the program.
SHELL = bash
.SHELLFLAGS = -euo pipefail -c
.ONESHELL:
# The largest come first, as far as they can.
crates := $(filter-out tests_%,$(shell du -s --exclude=out crates/* | sort -rn | sed 's,.*/,,'))
.PHONY: all $(crates)
all: $(crates)
.DEFAULT: # a library of the kit
	@:
include crates.txt

# A proof gets its share of the processors. If it fails, the end of its log is shown.
$(crates):
	@mkdir -p crates/$@/out
	for free in out/lanes/.free*; do ! mv -T $$free out/lanes/$@ 2> /dev/null || break; done
	touch out/lanes/$@
	out=$$PWD/crates/$@/out lanes=$$PWD/out/lanes
	: > $$out/build.log
	echo $@ >> $$lanes/begun
	line="proving $@ ($$(grep -nx $@ $$lanes/begun | cut -d : -f 1) of $(words $(crates))) .."
	for library in $@ $$(cat $$lanes/proved 2> /dev/null); do
	    if [[ -d crates/$$library/out/rlib && ! -d $$lanes/$@/crates/$$library/out ]]; then
	        mkdir $$lanes/$@/crates/$$library/out
	        cp -rl crates/$$library/out/rlib $$lanes/$@/crates/$$library/out
	    fi
	done
	cd $$lanes/$@/crates/$@
	goal=lib; [[ ! -f src/main.rt ]] || goal=run
	share=$$(($$(nproc) / $$(ls -d $$lanes/*/ | wc -l)))
	if ! rt $$goal --jobs $$((share > 1 ? share : 1)) < $$([[ $$goal == run ]] && echo stdin || echo /dev/null) > $$out/build.log 2>&1; then
	    echo "$$line"; tail -n 20 $$out/build.log; touch $$lanes/failed; exit 1
	fi
	rm -rf $$out/rlib $$out/incremental
	cp -rlf out/. $$out
	rm -rf out
	mv $$lanes/$@ $$(mktemp -du $$lanes/.freeXXXX)
	echo $@ >> $$lanes/proved
	[[ ! -t 1 ]] || printf '\r\033[K'
	echo "$$line $$SECONDS s"
