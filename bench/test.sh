#!/usr/bin/env bash
# How long the test of a 48-entry formula takes on runs of 1,000 to 1,000,000 places.
set -euo pipefail
cd "$(dirname "$0")/../crates/trial"
rt run -- time
