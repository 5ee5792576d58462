#!/usr/bin/env bash
# Makes each allocation of a short played session fail in turn, and shows that `play` then says so and nothing else: the
# test `short` of play_trials passes only if every answer is right or memory ran out. The last run is the first in which
# the failure comes after the session, so every allocation has failed once. If a run sees no failure, a call passed over
# its own. Each run takes up to half a minute.
set -euo pipefail
cd "$(dirname "${BASH_SOURCE[0]}")/../crates/play_trials"
for ((n = 1; ; n++)); do
  said=$(rt try --test --fail-alloc "$n" -- short 2>&1) || { echo "$said"; exit 1; }
  case $said in
    *'gave up'*) ;;
    *'memory failed later'*) echo "each of $((n - 1)) allocations failed in turn"; exit 0 ;;
    *) echo "$said"; echo "allocation $n failed, and no call said so"; exit 1 ;;
  esac
done
