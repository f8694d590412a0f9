#!/usr/bin/env bash
# The gate, which `make test` runs. `rt ci` proves each crate and its tests from nothing, tries the must-fail edits, and
# runs the tests and the programs. Then the scripts run on the built programs: the cases and the commands in the
# documents, the examples, failed allocations, the C library and the Python package, random grammars, and the generated
# parts of the documents. The scripts of a lane run one after the other, and the lanes side by side. A script has half an
# hour. The last lines name what was skipped and what failed, and count all.
# Arguments go to `rt ci`: with `--anew` it takes nothing from earlier runs on this machine.
set -u
cd "$(dirname "$0")/.." || exit 1
exec < /dev/null
logs=$(mktemp -d)
trap 'rm -rf "$logs"' EXIT
# One check at a time for each processor that has 4.5 GB of memory, the longest chain of crates first. Without RT_JOBS,
# `rt ci` holds large crates back while the memory that it estimates for them doesn't fit beside smaller ones.
memory=$(awk '/^MemAvailable:/ { print $2 }' /proc/meminfo) # in KiB
limit=$(cat /sys/fs/cgroup/memory.max 2> /dev/null)
[[ $limit =~ ^[0-9]+$ ]] && [ $((limit / 1024)) -lt "$memory" ] && memory=$((limit / 1024))
checks=$((memory / 4400000))
[ "$checks" -le "$(nproc)" ] || checks=$(nproc)
[ "$checks" -lt 2 ] || export RT_JOBS=${RT_JOBS:-$checks}
rt ci "$@" 2>&1 | tee "$logs/ci"
echo "rt ci: $SECONDS seconds"
counts=$(tail -n 1 "$logs/ci")
passed=$(sed -n 's/^\([0-9]*\) passed, [0-9]* failed$/\1/p' <<< "$counts")
failed=$(sed -n 's/^[0-9]* passed, \([0-9]*\) failed$/\1/p' <<< "$counts")
passed=${passed:-0}
failed=${failed:-1}
program=crates/pegtool/out/pegtool
lanes=(growths bindings cases others)
growths=("tests/oom/each_growth.py $program" "tests/oom/each_test.py" "tests/fuzz.py $program 2004 3000")
# The Python package and the comparison of warnings use the C library that the first of these builds, over what `rt ci`
# has proved.
bindings=("tests/bindings.sh $program --proved" "tests/python.sh $program" "tests/lint.py $program 2004 2000")
cases=("tests/cases.py $program" "tests/examples.py $program" "tests/explain.py $program" "tests/deep.py $program"
  "tests/wanted.py $program")
others=("tests/scripts.sh" "tools/moved_tests.py" "tools/crates.py --check" "tools/recipes.py" "tools/frames.py"
  "tools/contracts.py --check" "tools/definitions.py --check" "tools/documents.py" "tests/fuzz.py $program --examples")
run_lane() { # the scripts, in order; a line PASSED or FAILED ends what each prints
  local script start
  for script in "$@"; do
    echo "== $script"
    start=$SECONDS
    # Word splitting is intended here.
    # shellcheck disable=SC2086
    if timeout 1800 ./$script; then echo "PASSED: $script"; else echo "FAILED: $script"; fi
    echo "$script: $((SECONDS - start)) seconds"
  done
}
if [ -x "$program" ]; then
  for lane in "${lanes[@]}"; do
    declare -n scripts=$lane
    run_lane "${scripts[@]}" > "$logs/$lane" 2>&1 &
  done
  wait
  for lane in "${lanes[@]}"; do
    cat "$logs/$lane"
    passed=$((passed + $(grep -c '^PASSED: ' "$logs/$lane")))
    failed=$((failed + $(grep -c '^FAILED: ' "$logs/$lane")))
  done
else
  echo "no program was built"
  failed=$((failed + 1))
fi
grep -h '^SKIPPED: ' "$logs"/*
grep -hE '^(rt: )?FAILED: ' "$logs"/*
echo "$(cat "$logs"/* | grep -c '^SKIPPED: ') skipped"
echo "$passed passed, $failed failed"
[ "$failed" = 0 ]
