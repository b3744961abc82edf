#!/usr/bin/env bash
# The wrong bodies that the gate doesn't try still apply to the text as it is: tests/edits.sh says how they are tried.
set -u
exec bash "$(dirname "$0")/edits.sh" --read
