#!/bin/sh
# run.sh REPOSITORY JUNCTION BUILD: the tests of the library that `make test` built, in C under the address, undefined behaviour
# and thread sanitizers and under valgrind, in C and C++ from the shared library, in Python from the wheel, and as units of FMI
# 3.0, against the logs and notes of the built program JUNCTION, and where VECTORS names folders of vectors, against these; where
# DRIVEN names a folder of cases of seconds by commands, they are played in C, in Python and by JUNCTION.
set -e
here=$(cd "$(dirname "$0")/.." && pwd); repository=$1; junction=$2; build=$3; bin=$build/bin; logs=$build/logs
if [ ! -x "$junction" ]; then
    echo "there is no program at $junction: build it by 'rt run' in crates/junction, or name one by JUNCTION=.."
    exit 2
fi
python3 "$here/tests/cases.py" "$repository" "$junction" "$logs"
example=$repository/crates/junction/examples/four_arms
site="$example/four_arms.vap $example/junction.pua $example/times.csv $example/intergreens.csv"
for words in "$logs"/*.words; do
    printf '%s: ' "$(basename "$words" .words)"; "$bin/test_junction" $(cat "$words") "${words%.words}.log" "${words%.words}.code"
done
"$bin/test_calls" $site
"$bin/test_given" $site
for pua in "$repository"/crates/junction/examples/*/junction.pua "$repository"/crates/junction/examples/*/*/junction.pua; do
    of=$(dirname "$pua"); tables="$pua $of/times.csv $of/intergreens.csv"
    printf '%s: ' "$(basename "$of")"; "$bin/test_mask" "$of"/*.vap $tables 604801 7 "$build/week.log"
    "$junction" audit "$build/week.log" $tables > "$build/said" || { cat "$build/said"; exit 1; }
    grep '^SAFE 604801$' "$build/said" > /dev/null || { cat "$build/said"; exit 1; }
    rm "$build/week.log"
done
"$bin/test_threads" $site
"$bin/test_many" $site "$logs/hostile.list"
if command -v valgrind > /dev/null; then
    sound="valgrind -q --error-exitcode=9 --leak-check=full --show-leak-kinds=all --errors-for-leak-kinds=all"
    $sound "$bin/test_junction_plain" $(cat "$logs/two_stages_side_road.words") "$logs/two_stages_side_road.log" \
        "$logs/two_stages_side_road.code"
    $sound "$bin/test_calls_plain" $site
    $sound "$bin/test_given_plain" $site
    $sound "$bin/test_many_plain" $site "$logs/hostile.list" 300
    echo "valgrind finds nothing"
else
    echo "valgrind isn't here: not tried"
fi
for words in "$logs"/*.words; do
    set -- $(cat "$words")
    for program in example_c example_cpp; do
        "$bin/$program" "$1" "$2" "$3" "$4" < "$5" | cmp - "${words%.words}.log"
    done
done
echo "the examples of C and C++ write the logs"
rm -rf "$build/venv"
${PYTHON:-/usr/bin/python3} -m venv --system-site-packages "$build/venv"
"$build/venv/bin/pip" install -q --no-index --no-deps "$build"/vantulig-*.whl
export EXAMPLES="$repository/crates/junction/examples" LOGS="$logs"
(cd "$build" && "$build/venv/bin/python3" -m unittest discover -s "$here/python/tests" 2>&1)
if [ -x /usr/bin/mypy ]; then
    (cd "$here/python" && /usr/bin/mypy --strict --cache-dir "$build/mypy" --python-executable /usr/bin/python3 vantulig)
else
    echo "mypy isn't here: not tried"
fi
echo 'const char *junction_version(void) { return "0.0.0"; }' | cc -shared -fPIC -x c - -o "$build/other.so"
if VANTULIG="$build/other.so" "$build/venv/bin/python3" -c 'import vantulig; vantulig.Controller(b"", b"", b"", b"")' 2> "$build/said"; then
    echo "WRONG: a library of another version is taken"; exit 1
fi
grep 'ImportError: .*has version 0.0.0' "$build/said" > /dev/null || { cat "$build/said"; exit 1; }
two=$repository/crates/junction/examples/two_stages
python3 "$here/tests/page.py" "$repository/docs/own-control.md" "$two" "$build" "$build/venv/bin/python3"
"$build/venv/bin/python3" "$here/examples/learn.py" "$two" "$build/learned.log"
"$junction" audit "$build/learned.log" "$two/junction.pua" "$two/times.csv" "$two/intergreens.csv" > "$build/said" ||
    { cat "$build/said"; exit 1; }
grep '^SAFE 3600$' "$build/said" > /dev/null || { cat "$build/said"; exit 1; }
if [ -n "$VECTORS" ]; then "$build/venv/bin/python3" "$here/tests/vectors.py" $VECTORS; fi
if [ -n "$DRIVEN" ]; then
    cc -std=gnu11 -O1 -g -fsanitize=address,undefined -fno-sanitize-recover=undefined -I"$here/include" "$DRIVEN/play.c" \
        "$here/src/junction.c" "$build/lib/libjunction.a" -lm -o "$bin/play"
    "$bin/play" "$DRIVEN"/given/[0-9]*
    "$build/venv/bin/python3" "$here/tests/driven.py" "$DRIVEN" "$junction"
fi
for words in "$logs"/*.words; do
    set -- $(cat "$words"); name=$(basename "$words" .words); printf '%s: ' "$name"
    python3 "$here/fmi/make_fmu.py" "$build/$name.fmu" "$build" "$1" "$2" "$3" "$4"
    python3 "$here/fmi/try_fmu.py" "$build/$name.fmu" "$bin/master" "$5" "${words%.words}.log" > "$build/said" ||
        { cat "$build/said"; exit 1; }
    tail -1 "$build/said"
done
"$build/venv/bin/python3" "$here/fmi/try_commands.py" "$build/four_arms_four_arms.fmu" $site
echo "all is well"
