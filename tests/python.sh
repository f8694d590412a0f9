#!/usr/bin/env bash
# Runs the tests of the Python package on the built library (`make lib`) and on the built program, which is the argument:
# with python3, and with other versions that are here. The wheel is tested with the oldest version and the newest one.
# The annotations are checked by mypy. A version that isn't here, and a test that is skipped, has a line SKIPPED.
set -u
cd "$(dirname "$0")/.." || exit 1
program=$(realpath "${1:-crates/pegtool/out/pegtool}")
[ -e out/lib/libpeg.so ] || { echo "out/lib/libpeg.so isn't built: make lib"; exit 1; }
faults=0
run_tests() { # the Python to run them with
  echo "== $("$1" --version)"
  PEGTOOL=$program PYTHONPATH=python PYTHONDONTWRITEBYTECODE=1 "$1" -m unittest discover -v -s python/tests -t python 2>&1 |
    sed -E 's/^(.*) \.\.\. skipped (.*)$/SKIPPED: \1: \2/'
  [ "${PIPESTATUS[0]}" = 0 ] || faults=$((faults + 1))
}
find_python() { # a version: the path of a Python of this version, if there is one
  for python in "python$1" "$(pyenv root 2> /dev/null)/versions/$1".*/bin/python; do
    "$python" -c "" 2> /dev/null && { command -v "$python"; return; }
  done
}
test_wheel() { # a version, and the path of its Python if it is here
  if [ -z "$2" ]; then echo "SKIPPED: the wheel with Python $1"; return; fi
  tests/wheel.sh "$2" || faults=$((faults + 1))
}
check_types() {
  if ! command -v mypy > /dev/null; then echo "SKIPPED: the annotations, there is no mypy"; return; fi
  mypy --strict --cache-dir /dev/null python/pegtool || faults=$((faults + 1))
}
check_types
run_tests python3
for version in 3.9 3.10 3.13; do
  python=$(find_python "$version")
  if [ -n "$python" ]; then run_tests "$python"; else echo "SKIPPED: the Python package with Python $version"; fi
done
test_wheel 3.9 "$(find_python 3.9)"
for version in 3.15 3.14 3.13 3.12 3.11 3.10; do
  newest=$(find_python "$version")
  [ -z "$newest" ] || break
done
test_wheel "3.10 or later" "$newest"
echo "Python: $faults faults"
[ "$faults" = 0 ]
