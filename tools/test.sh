#!/bin/sh
# Runs all tests of the tools, on small files of the repository. What a test needs and is not there is said, and left out.
#
# usage: test.sh [FOLDER]
#
# Where FOLDER is named, each application package in it is taken from the package to the answer, too.
cd "$(dirname "$0")" || exit 2
if ! python3 -c 'import tomllib' 2> /dev/null; then
    echo "there is no python3 of version 3.11 or later here: the tools are not tested"
    exit 0
fi
status=0
python3 -B -m unittest test_tools || status=1
if command -v mandoc > /dev/null; then
    mandoc -T lint -W all ../docs/nosleep.1 || status=1
else
    echo "there is no mandoc here: the manual page is not looked at"
fi
if [ $# -gt 0 ]; then
    python3 real_packages.py "$1" || status=1
fi
exit $status
