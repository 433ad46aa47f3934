#!/bin/bash
# Submits a job array for each level of a tree of cuts, with a task for each extract that is cut. Each array waits for the one before it.
#
# usage: tree.sh LEVEL..        in the folder of planet.osm.pbf, which all nodes share, with pbfcutz on the PATH
#
# If a cut fails for good, the levels below it are cancelled. The same command again makes what isn't there.
set -eu
after=()
for level; do
  count=$(awk 'NF && !seen[$1]++' "$level" | wc -l)
  job=$(sbatch --parsable --requeue --kill-on-invalid-dep=yes "${after[@]}" --array="1-$count" "$(dirname "$0")/cut.sh" "$level")
  after=(--dependency="afterok:$job")
  echo "$level: job $job, $count tasks"
done
