#!/usr/bin/env bash
# Runs the tests of the Python scripts in tests/. The last line says how many there were.
cd "$(dirname "$0")" || exit 1
exec python3 -B -m unittest discover -s scripts 2>&1
