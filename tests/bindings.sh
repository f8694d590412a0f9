#!/usr/bin/env bash
# Tests the C library: builds it, compiles the C programs against its archive and its shared object, and runs them.
# Compares the symbols that it shows and takes with lists, and looks for data that can be written. Compares rows.c, and
# rows.rs where there is rustc, with `pegtool parse --rows` for each text of examples/. Runs the programs under valgrind
# where there is one. Takes the path of pegtool, by default the one that `make run` builds, and the words for
# tools/c_library.sh. The last line counts the faults.
set -u
cd "$(dirname "$0")/.." || exit 1
program=$(realpath -- "${1:-crates/pegtool/out/pegtool}")
[ -x "$program" ] || { echo "no program: run make run first"; exit 1; }
work=$(mktemp -d)
trap 'rm -rf "$work"' EXIT
faults=0
fault() {
  echo "$1" >&2
  faults=$((faults + 1))
}

tools/c_library.sh "${@:2}" || exit 1

# The names that the libraries show are those of the header.
grep -o '^PEG_API .*\bpeg_[a-z_]*(' include/peg.h | grep -o 'peg_[a-z_]*(' | tr -d '(' | sort -u > "$work/declared"
nm -D --defined-only out/lib/libpeg.so | awk '$2 == "T" && sub(/@@LIBPEG_1$/, "", $3) { print $3 }' |
  sort -u > "$work/shared"
nm -g --defined-only out/lib/libpeg.a 2> /dev/null | awk 'NF == 3 { print $3 }' | sort -u > "$work/static"
cmp "$work/declared" "$work/shared" || fault "libpeg.so doesn't show the functions of the header"
cmp "$work/declared" "$work/static" || fault "libpeg.a doesn't show the functions of the header"
readelf -d out/lib/libpeg.so | grep -q 'SONAME.*libpeg.so.1' || fault "libpeg.so has another soname"

# The library takes the listed symbols from others, and makes no system calls itself. It has no data that can be written
# but the byte `nothing` of the kit's heap. Only its address is used, as the result of a request that failed. Constants
# with addresses (.data.rel.ro) can't be written after the loader has filled these in.
sed '/^#/d; /^$/d' tests/c/imports.txt | sort > "$work/listed"
nm -D --undefined-only out/lib/libpeg.so | awk '{ print $NF }' | sed 's/@.*//' | sort > "$work/imported"
diff "$work/listed" "$work/imported" >&2 || fault "libpeg.so doesn't take the symbols of tests/c/imports.txt"
objdump -d --no-show-raw-insn out/lib/libpeg.a |
  awk '$2 ~ /^(syscall|sysenter|int)$/ { found = 1 } END { exit found }' || fault "libpeg.a makes system calls"
size -A out/lib/libpeg.a | awk '$1 ~ /^\.t?(data|bss)/ && $1 !~ /^\.data\.rel\.ro/ && $2 { print $1, $2 }' > "$work/writable"
nm out/lib/libpeg.a | awk '$2 ~ /^[bBcCdDgGsS]$/ { print $3 }' >> "$work/writable"
printf '.bss 1\nnothing\n' | diff - "$work/writable" >&2 || fault "libpeg.a has data that can be written"

compile() { # the program's name, its file, and more words for gcc
  gcc -std=c11 -O1 -g -Wall -Wextra -Werror -Iinclude -o "$work/$1" "$2" "${@:3}" || fault "$2 doesn't compile"
}
archive=out/lib/libpeg.a
wrap=-Wl,--wrap=malloc,--wrap=realloc,--wrap=free
compile rows examples/c/rows.c $archive
compile rows_shared examples/c/rows.c -Lout/lib -lpeg "-Wl,-rpath,$PWD/out/lib"
compile lint examples/c/lint.c $archive
compile lines tests/c/lines.c $archive
compile misuse tests/c/misuse.c $archive
compile freed tests/c/freed.c $archive
compile conveniences tests/c/conveniences.c $archive
compile records tests/c/records.c $archive
compile memory tests/c/memory.c $archive $wrap
compile threads tests/c/threads.c $archive -pthread
compile shared tests/c/shared.c $archive -pthread
compile stack tests/c/stack.c $archive -pthread
# The header has no warning in three standards, and a test uses each function that it defines.
printf '#include "peg.h"\nint main(void) { peg_grammar grammar = PEG_NULL; peg_grammar_drop(&grammar); return 0; }\n' \
  > "$work/header.c"
clean() { # the words of a compiler
  if ! command -v "$1" > /dev/null; then echo "SKIPPED: the header's warnings by $1"; return; fi
  "$@" -Wall -Wextra -Wpedantic -Werror -Iinclude -c -o /dev/null "$work/header.c" || fault "the header has warnings: $*"
}
few=(-Wno-padded -Wno-declaration-after-statement -Wno-unknown-warning-option -Wno-unsafe-buffer-usage)
for words in "c -std=c99" "c -std=c11" "c++ -std=c++17"; do
  # shellcheck disable=SC2086 # the language and its standard are two words
  { clean gcc -x $words; clean clang -x $words -Weverything "${few[@]}"; }
done
sed -n 's/^static inline .*\(peg_[a-z_]*\)(.*/\1/p' include/peg.h > "$work/defined"
[ -s "$work/defined" ] || fault "the header defines no function"
while IFS= read -r name; do
  grep -q "\b$name(" tests/c/conveniences.c || fault "conveniences.c doesn't use $name"
done < "$work/defined"
# In C++ the outputs of calls are initialised by `= {}`. The header has the interface and the version of the library.
cat > "$work/abi.cc" << 'PROGRAM'
#include <cstdio>
#include <cstring>
#include "peg.h"
int main() {
  peg_grammar grammar = PEG_NULL;
  peg_refusal_info info = {};
  peg_summary summary = {};
  char numbers[32] = {}, version[32] = {};
  std::snprintf(numbers, sizeof numbers, "%d.%d.%d", PEG_VERSION_MAJOR, PEG_VERSION_MINOR, PEG_VERSION_PATCH);
  peg_version(reinterpret_cast<uint8_t *>(version), sizeof version - 1);
  return peg_abi() != PEG_ABI || std::strcmp(version, PEG_VERSION) || std::strcmp(version, numbers) ||
         grammar.opaque || info.kind || summary.nodes;
}
PROGRAM
g++ -Wall -Wextra -Werror -Iinclude -o "$work/abi" "$work/abi.cc" $archive || fault "C++ can't include the header"
"$work/abi" || fault "the library has another interface or version than the header"
programs="rows rows_shared"
if command -v rustc > /dev/null; then
  rustc --edition 2021 -O -D warnings -L out/lib -l static=peg examples/rust/rows.rs -o "$work/rows_rust" ||
    fault "rows.rs doesn't compile"
  programs="$programs rows_rust"
else
  echo "SKIPPED: rows.rs, there is no rustc"
fi

# The rows and the profile of each text, beside those of the tool.
texts=0
for grammar in examples/*.peg examples/cookbook/*.peg; do
  for text in "${grammar%.peg}"/*; do
    want_status=0
    "$program" parse "$grammar" "$text" --rows > "$work/want" || want_status=$?
    for rows in $programs; do
      status=0
      "$work/$rows" "$grammar" "$text" > "$work/got" || status=$?
      [ "$status" = "$want_status" ] || fault "$rows: status $status and not $want_status: $grammar $text"
      cmp "$work/want" "$work/got" || fault "$rows: other rows: $grammar $text"
    done
    "$program" profile "$grammar" "$text" --steps 1000000 > "$work/want"
    "$work/lines" profile "$grammar" "$text" 1000000 > "$work/got" || fault "lines: no profile: $grammar $text"
    cmp "$work/want" "$work/got" || fault "lines: another profile: $grammar $text"
    texts=$((texts + 1))
  done
done
echo "rows and profiles: $texts texts"

# The lines about each grammar, beside those of the tool, and the numbers of its rules.
grammars=0
for grammar in examples/*.peg examples/cookbook/*.peg examples/lint/*.peg; do
  for command in code table lint; do
    "$program" "$command" "$grammar" > "$work/want"
    "$work/lines" "$command" "$grammar" > "$work/got" || fault "lines: no line of $command: $grammar"
    cmp "$work/want" "$work/got" || fault "lines: another line of $command: $grammar"
  done
  "$work/lines" names "$grammar" > "$work/got" || fault "lines: no numbers: $grammar"
  seq 0 "$(($(wc -l < "$work/got") - 1))" | cmp - "$work/got" || fault "lines: other numbers: $grammar"
  grammars=$((grammars + 1))
done
echo "lines: $grammars grammars"

# A refused file, and the places that lint reports.
printf 'A <- B\n' > "$work/refused.peg"
"$program" parse "$work/refused.peg" /dev/null --rows > "$work/want"
"$work/rows" "$work/refused.peg" /dev/null > "$work/got"
cmp "$work/want" "$work/got" || fault "other refusal"
printf '{"a": }' > "$work/text"
# The messages of lint, beside those of `pegtool explain`, for each line of tests/explain, whose marks are left in.
messages=0
for grammar in tests/explain/*.peg; do
  while IFS= read -r line; do
    printf '%s' "$line" > "$work/faulty"
    "$program" explain "$grammar" "$work/faulty" > "$work/want"
    "$work/lint" "$grammar" "$work/faulty" > "$work/got"
    cmp "$work/want" "$work/got" || fault "lint: another message: $grammar $line"
    messages=$((messages + 1))
  done < "${grammar%.peg}.txt"
done
echo "lint: $messages messages"
"$program" explain examples/json.peg "$work/text" > "$work/want"
"$work/lint" examples/json.peg "$work/text" > "$work/got"
cmp "$work/want" "$work/got" || fault "lint: another message for JSON"
"$work/lint" examples/json.peg > "$work/got" || fault "lint rejects a grammar"
[ ! -s "$work/got" ] || fault "lint reports a correct grammar"
"$program" explain "$work/refused.peg" > "$work/want"
"$work/lint" "$work/refused.peg" > "$work/got"
cmp "$work/want" "$work/got" || fault "lint: another message for a refused file"

"$work/misuse" || fault "misuse"
"$work/records" || fault "records"
mapfile -t statuses < <(sed -n '/^enum peg_status/,/^}/s/^ *\(PEG_[A-Z_]*\) = \([0-9]*\).*/\1=\2/p' include/peg.h)
"$work/conveniences" "${statuses[@]}" || fault "conveniences"
printf '{"a": [1, "b"]}' > "$work/object"
"$work/freed" examples/json.peg "$work/object" || fault "freed"
json=$(find examples/json -type f | sort | head -n 1)
"$work/memory" examples/json.peg "$json" || fault "memory"
printf '[%s]' "$(seq -s, 4000)" > "$work/long"
"$work/memory" examples/json.peg "$work/long" || fault "memory of a long text"
# Without a memo the steps double with each level of nesting.
printf 'S <- A\nA <- "(" A ")" "x" / "(" A ")" "y" / "a"\n' > "$work/nested.peg"
printf '%s' "$(printf '(%.0s' {1..22})a$(printf ')y%.0s' {1..22})" > "$work/nested"
"$work/memory" "$work/nested.peg" "$work/nested" || fault "memory of a nested text"

"$work/threads" examples/json.peg "$json" || fault "threads"
"$work/shared" examples/json.peg "$work/object" || fault "shared"
"$work/stack" || fault "stack"

if command -v valgrind > /dev/null; then
  under() { # the program and its words: no error and no leak
    valgrind -q --error-exitcode=99 --leak-check=full "$work/$1" "${@:2}" > "$work/out" 2> "$work/errors"
    case $? in
      99) fault "valgrind reports an error: $*"; cat "$work/errors" >&2 ;;
    esac
  }
  under rows examples/json.peg "$json"
  under lint examples/json.peg "$work/text"
  under lines code examples/json.peg
  under lines lint examples/lint/mistakes.peg
  under lines profile examples/json.peg "$json" 1000000
  under misuse
  under records
  under conveniences "${statuses[@]}"
  under freed examples/json.peg "$work/object"
  under memory examples/json.peg "$json"
  under shared examples/json.peg "$work/object"
  races() { # a tool of valgrind, the program and its words: no accesses without an order
    valgrind -q --tool="$1" --error-exitcode=99 "$work/$2" "${@:3}" > "$work/out" 2>&1 ||
      { fault "$1 reports an error: ${*:2}"; cat "$work/out" >&2; }
  }
  races helgrind threads examples/json.peg "$json"
  races helgrind shared examples/json.peg "$work/object"
  races drd shared examples/json.peg "$work/object"
  echo "valgrind: 11 programs"
else
  echo "SKIPPED: the C programs under valgrind, there is none"
fi
echo "$faults faults"
[ "$faults" = 0 ]
