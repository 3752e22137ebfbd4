#!/usr/bin/env bash
# The ten calls of the library beside the same calls in plain Rust that it is measured against (bench/): both give the same answers,
# and leave the same in the buffers. Lines are taken as the cases have them, and with one field or number changed. Nothing is timed.
exec "$(dirname -- "${BASH_SOURCE[0]}")/../bench/run" --answers
