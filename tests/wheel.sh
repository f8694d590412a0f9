#!/usr/bin/env bash
# Tests the wheel of the Python package with the Python that is the argument, after `make lib`. Makes the wheel, installs
# it into a fresh virtual environment without a network, and parses a text there. Then installs the folder python in its
# place, as `pip install ./python` does. A build without a library must end with a message.
set -u
cd "$(dirname "$0")/.." || exit 1
python=$1
work=$(mktemp -d)
trap 'rm -rf "$work"' EXIT
unset PYTHONPATH PEGTOOL_LIBRARY
export PIP_DISABLE_PIP_VERSION_CHECK=1 PIP_NO_CACHE_DIR=1
faults=0
fault() {
  echo "$1" >&2
  faults=$((faults + 1))
}

"$python" -c "import ensurepip, venv" 2> /dev/null ||
  { echo "SKIPPED: the wheel with $("$python" --version), which has no pip to install"; exit 0; }
"$python" -m venv "$work/env" || { echo "no virtual environment for $python"; exit 1; }
inside=$work/env/bin/python
install() { # what to install
  "$inside" -m pip install -q --no-index --force-reinstall "$1" > "$work/log" 2>&1
}
check_installed() { # how it was installed
  (cd "$work" && "$inside" - << 'PROGRAM') || fault "$1: the installed package doesn't work"
import os
import sys

import pegtool
from pegtool import _library

library = _library.LIBRARY._name
assert library.startswith(sys.prefix), library
assert os.path.basename(library) == "libpeg.so.1", library
assert pegtool.__version__ == pegtool.version(), pegtool.__version__
grammar = pegtool.Grammar("Sum <- Number ('+' Number)*  Number <- [0-9]+")
texts = [node.text for node in grammar.parse("1+22").root.find_all("Number")]
assert texts == ["1", "22"], texts
PROGRAM
  version=$(cd "$work" && "$inside" -m pegtool --version)
  [[ $version =~ ^pegtool\ [0-9]+\.[0-9]+\.[0-9]+$ ]] || fault "$1: --version prints $version"
}

wheel=$("$python" python/backend/pegtool_build.py "$work/first") || fault "no wheel is made"
same=$("$python" python/backend/pegtool_build.py "$work/second") || fault "no second wheel is made"
cmp "$wheel" "$same" || fault "two wheels of the same files differ"
platform=$("$python" -c "import sysconfig; print(sysconfig.get_platform().replace('-', '_').replace('.', '_'))")
[[ $wheel == */pegtool-*-py3-none-$platform.whl ]] || fault "the wheel has another name: $wheel"
install "$wheel" || { fault "the wheel can't be installed"; cat "$work/log" >&2; }
check_installed "the wheel"
"$inside" -m pip check -q || fault "pip finds a fault in what is installed"
"$inside" -m pip uninstall -q -y pegtool || fault "the wheel can't be removed"
[ -z "$(find "$work/env" -name '*pegtool*' -o -name 'libpeg*')" ] || fault "a file of the package is left"

install ./python || { fault "the folder can't be installed"; cat "$work/log" >&2; }
check_installed "the folder"

mkdir "$work/fresh"
cp -r python "$work/fresh/python"
install "$work/fresh/python" && fault "a package without a library is installed"
grep -q "out/lib/libpeg.so.1 isn't built: run .make lib. at the top of the repository" "$work/log" ||
  { fault "the missing library isn't named"; cat "$work/log" >&2; }
grep -q Traceback "$work/log" && fault "a traceback is shown for the missing library"

echo "wheel: $("$python" --version), $faults faults"
[ "$faults" = 0 ]
