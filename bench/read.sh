#!/usr/bin/env bash
# How long a table plant takes to read, from 64 to 4,096 states with sixteen arcs each.
set -euo pipefail
cd "$(dirname "$0")/../crates/plant_trial"
rt run -- read
