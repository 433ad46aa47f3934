# A tree of cuts: every box is cut out of the extract of the larger box around it, which is byte for byte what a cut of IN gives. One run makes all
# cuts that are read from the same extract.
#
#   make -f sample/tree.mk                                      all cuts, in out/tree
#   make -f sample/tree.mk -j4 OPTIONS=--parents OUT=out/above  the same with all parents, four runs at a time
#
# A cut that is there is whole, and isn't made again unless the one above it is newer. Run the same command after an interruption.

PBFCUT ?= ./pbfcutz
IN ?= sample/town.osm.pbf
OUT ?= out/tree
OPTIONS ?=

# Each cut has a box, and the cut that it is read from; without one it is read from IN.
CUTS := region south town west mill old_town east hill
box.region := 9.98,49.994,10.004,50.006
box.south := 9.98,49.99,10.03,49.999
box.town := 9.994,49.997,10.004,50.004
from.town := region
box.west := 9.98,49.994,9.994,50.006
from.west := region
box.mill := 10.002,49.996,10.01,49.999
from.mill := south
box.old_town := 9.997,49.999,10.003,50.003
from.old_town := town
box.east := 10.003,49.997,10.004,50.004
from.east := town
box.hill := 9.985,50.003,9.994,50.006
from.hill := west

all: $(CUTS:%=$(OUT)/%.osm.pbf)

parent = $(or $(from.$(1)),IN)
children = $(foreach cut,$(CUTS),$(if $(filter $(1),$(call parent,$(cut))),$(cut)))
path_of = $(if $(filter IN,$(1)),$(IN),$(OUT)/$(1).osm.pbf)
# NAME,BOX of each child
lines = $(foreach cut,$(children),$(cut),$(box.$(cut)))

# Refuses children that aren't within their parent's box.
check = [ -z "$(box.$(1))" ] || printf '%s\n' $(lines) | awk -F, -v parent=$(1) -v around=$(box.$(1)) ' \
	BEGIN { split(around, edge) } \
	edge[1] > $$2 || edge[2] > $$3 || edge[3] < $$4 || edge[4] < $$5 { print "the box of " $$1 " is not in that of " parent; status = 1 } \
	END { exit status }' >&2

# What `pbfcutz extract -c` reads, with the children that are missing or older than their parent, or by -B with all. If a run of theirs was killed, what
# it left is removed.
config = for line in $(lines); do \
	name=$${line%%,*}; file=$(OUT)/$$name.osm.pbf; \
	$(if $(findstring B,$(firstword -$(MAKEFLAGS))),,[ -e $$file ] && [ -z "$$(find -H $< -newer $$file)" ] && continue;) \
	rm -f $$file.*.part; \
	echo "{\"output\": \"$$name.osm.pbf\", \"bbox\": [$${line\#*,}]}"; \
	done | paste -s -d , | sed 's/.*/{"extracts": [&]}/'

define cut_children
@$(check)
@mkdir -p $(OUT)
@$(config) >$(OUT)/$(1).json
$(PBFCUT) extract $(OPTIONS) -O -c $(OUT)/$(1).json -d $(OUT) $<
@rm $(OUT)/$(1).json
endef

# By -s smart a run makes one cut.
define cut_one
@$(check)
@mkdir -p $(OUT) && rm -f $@.*.part
$(PBFCUT) extract $(OPTIONS) -O --box=$(box.$(2)) $< $@
endef

define newline


endef

define rules
ifeq ($(filter -s% --strategy%,$(OPTIONS)),)
$(foreach cut,$(children),$(call path_of,$(cut))) &: $(call path_of,$(1)); $$(call cut_children,$(1))
else
$(foreach cut,$(children),$(call path_of,$(cut)): $(call path_of,$(1)); $$(call cut_one,$(1),$(cut))$(newline))
endif
endef

$(foreach parent_cut,$(sort $(foreach cut,$(CUTS),$(call parent,$(cut)))),$(eval $(call rules,$(parent_cut))))

.PHONY: all
