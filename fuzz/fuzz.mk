# Fault-finding at the C boundary; see fuzz/README.md. For a top Makefile, after its first target: include fuzz/fuzz.mk
#   make fuzz           each driver for FUZZ_SECONDS, one after the other
#   make fuzz-wrong     that the drivers find the faults of fuzz/wrong.c, a few seconds for each at most
#   make fuzz-memcheck  every function under valgrind
FUZZ_ARCHIVE ?= build/liblanyardrove.a
FUZZ_OUT ?= build/fuzz
FUZZ_SECONDS ?= 600
FUZZ_DRIVERS := check repair repair_afresh draw view decode encode words step stream compare translate index
FUZZ_FUNCTIONS := check repair repair_afresh draw view decode encode words step stream_feed stream_close compare rest translate index_build index_ask index_replace
FUZZ_FLAGS := -std=gnu17 -O2 -g -Wall -Wextra -Iinclude -Ifuzz
FUZZ_COMMON := fuzz/lent.c fuzz/lists.c fuzz/repairs.c fuzz/fields.c fuzz/acts.c fuzz/mutate.c fuzz/blocks.c
FUZZ_HEADERS := fuzz/lent.h fuzz/lists.h fuzz/repairs.h fuzz/fields.h fuzz/acts.h fuzz/record.h fuzz/library.h $(wildcard include/lanyardrove.h)
FUZZ_NAMES := $(FUZZ_FUNCTIONS:%=-u lanyardrove_%)

# the versions of fuzz/wrong.c that each driver has to find
FUZZ_WRONG := check:1 check:2 check:3 check:4 check:5 check:6 check:7 check:8 check:9 check:10 check:17 check:18 check:19 \
    repair:11 repair:12 repair:13 repair:14 repair:15 repair:16 repair:20 \
    repair_afresh:101 repair_afresh:102 repair_afresh:103 repair_afresh:104 repair_afresh:105 repair_afresh:106 repair_afresh:107 draw:21 draw:22 draw:23 draw:24 draw:25 draw:26 \
    draw:27 draw:28 draw:29 draw:30 draw:36 draw:37 draw:38 draw:39 view:131 view:132 view:133 view:134 view:135 view:136 view:137 view:138 view:139 \
    decode:31 decode:32 decode:33 decode:34 encode:41 encode:42 encode:43 encode:44 encode:45 \
    words:35 words:51 words:52 words:53 words:54 words:55 step:4 step:61 step:62 step:63 step:64 step:65 step:66 step:67 \
    stream:71 stream:72 stream:73 stream:74 stream:75 stream:76 stream:77 stream:78 stream:79 stream:80 \
    stream:81 stream:82 stream:83 stream:84 stream:85 stream:86 stream:87 stream:88 stream:89 \
    compare:111 compare:112 compare:113 compare:114 compare:115 compare:116 compare:117 compare:118 compare:119 \
    translate:91 translate:92 translate:93 translate:94 translate:95 translate:96 translate:97 translate:98 translate:99 \
    index:101 index:102 index:103 index:104 index:105 index:106 index:107 index:108 index:109 index:110 index:120

.PHONY: fuzz-build fuzz fuzz-wrong fuzz-memcheck fuzz-always
fuzz-build: $(FUZZ_DRIVERS:%=$(FUZZ_OUT)/%) $(FUZZ_OUT)/blocks $(FUZZ_OUT)/memcheck

fuzz: $(FUZZ_DRIVERS:%=$(FUZZ_OUT)/%.log)
	python3 fuzz/blocks.py $(FUZZ_OUT)/blocks $(FUZZ_DRIVERS:%=$(FUZZ_OUT)/%.reached)

fuzz-memcheck: $(FUZZ_OUT)/memcheck
	valgrind --error-exitcode=1 --leak-check=full --show-leak-kinds=all $< examples/*.rdp

$(FUZZ_OUT)/lanyardrove.o: $(FUZZ_ARCHIVE) fuzz/join.ld
	mkdir -p $(FUZZ_OUT)
	ld -r -T fuzz/join.ld $(FUZZ_NAMES) -o $@ $<

$(FUZZ_OUT)/blocks: $(FUZZ_OUT)/lanyardrove.o fuzz/blocks.py
	python3 fuzz/blocks.py $< > $@

$(FUZZ_DRIVERS:%=$(FUZZ_OUT)/%): $(FUZZ_OUT)/%: fuzz/%.c $(FUZZ_COMMON) $(FUZZ_HEADERS) $(FUZZ_OUT)/lanyardrove.o
	clang $(FUZZ_FLAGS) -fsanitize=fuzzer,address -o $@ $< $(FUZZ_COMMON) $(FUZZ_OUT)/lanyardrove.o

$(FUZZ_OUT)/memcheck: fuzz/memcheck.c fuzz/lent.c fuzz/lists.c fuzz/fields.c $(FUZZ_HEADERS) $(FUZZ_ARCHIVE)
	mkdir -p $(FUZZ_OUT)
	clang $(FUZZ_FLAGS) -gdwarf-4 -o $@ fuzz/memcheck.c fuzz/lent.c fuzz/lists.c fuzz/fields.c $(FUZZ_ARCHIVE)

# The library's functions renamed, behind those of fuzz/wrong.c
$(FUZZ_OUT)/wrong.o: $(FUZZ_OUT)/lanyardrove.o fuzz/wrong.c fuzz/lists.h fuzz/record.h
	objcopy $(foreach f,$(FUZZ_FUNCTIONS),--redefine-sym lanyardrove_$(f)=right_$(f)) $< $(FUZZ_OUT)/right.o
	clang $(FUZZ_FLAGS) -c -o $(FUZZ_OUT)/wrong-only.o fuzz/wrong.c
	ld -r -o $@ $(FUZZ_OUT)/right.o $(FUZZ_OUT)/wrong-only.o

$(FUZZ_DRIVERS:%=$(FUZZ_OUT)/wrong-%): $(FUZZ_OUT)/wrong-%: fuzz/%.c $(FUZZ_COMMON) $(FUZZ_HEADERS) $(FUZZ_OUT)/wrong.o
	clang $(FUZZ_FLAGS) -fsanitize=fuzzer,address -o $@ $< $(FUZZ_COMMON) $(FUZZ_OUT)/wrong.o

fuzz-wrong: $(FUZZ_DRIVERS:%=$(FUZZ_OUT)/wrong-%)
	for one in $(FUZZ_WRONG); do driver=$${one%:*}; rm -rf $(FUZZ_OUT)/wrong.corpus; mkdir $(FUZZ_OUT)/wrong.corpus; \
	    if WRONG=$${one#*:} $(FUZZ_OUT)/wrong-$$driver -max_total_time=10 -max_len=4096 -len_control=0 -artifact_prefix=$(FUZZ_OUT)/wrong- \
	        $(FUZZ_OUT)/wrong.corpus > $(FUZZ_OUT)/wrong.log 2>&1; \
	    then echo "$$one not found"; exit 1; else echo "$$one found: $$(grep -m1 -E 'DEMAND|SUMMARY' $(FUZZ_OUT)/wrong.log)"; fi; done

# The corpus begins with document 01's examples, behind settings that are all zero. An input that fails is left in $(FUZZ_OUT) as DRIVER-crash-..
$(FUZZ_OUT)/%.log: $(FUZZ_OUT)/% $(FUZZ_OUT)/blocks examples/*.rdp fuzz-always
	mkdir -p $(FUZZ_OUT)/$*.corpus
	for list in examples/*.rdp; do (head -c 24 /dev/zero; cat $$list) > $(FUZZ_OUT)/$*.corpus/$$(basename $$list); done
	FUZZ_BLOCKS=$(FUZZ_OUT)/blocks FUZZ_REACHED=$(FUZZ_OUT)/$*.reached $< -max_total_time=$(FUZZ_SECONDS) -timeout=10 -max_len=4096 -len_control=0 \
	    -print_final_stats=1 -artifact_prefix=$(FUZZ_OUT)/$*- $(FUZZ_OUT)/$*.corpus > $@ 2>&1 || (tail -40 $@; mv $@ $@.failed; false)
	grep -E '^(answers|blocks|Done|stat::number)' $@
