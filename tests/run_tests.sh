#!/usr/bin/env bash
# Runs all tests of the static libraries of crates/flat and crates/host and of the
# programs of crates/ringlist and crates/molrings, as rt built them in the out/ of
# each: in C, in Rust, on molfiles of Open Babel where it is installed, by killing
# the example host and the program that carries its states over, and a sample under
# valgrind. Any failure is a non-zero exit.
set -euo pipefail
cd "$(dirname "$0")/.."
root=$PWD
die() { echo "run_tests.sh: $*" >&2; exit 1; }

flat=$root/crates/flat/out/libflat.a
host=$root/crates/host/out/libhost.a
ringlist=$root/crates/ringlist/out/ringlist
molrings=$root/crates/molrings/out/molrings
for made in "$flat" "$host" "$ringlist" "$molrings"; do
    [ -f "$made" ] || die "$made is missing; build it first"
done

checker="valgrind --error-exitcode=9 -q"

out=$root/target/tests
mkdir -p "$out"
export CARGO_TARGET_DIR=$out/cargo
unset FLAT_LIB_DIR FLAT_BIN_DIR FLAT_SAMPLE

echo "== Example sheets and molfiles: the scripts make the files that are committed"
rm -rf "$out/examples"
mkdir "$out/examples"
python3 examples/make_sheets.py "$out/examples"
python3 examples/make_molfiles.py "$out/examples"
for file in {"$out/examples",examples}/*.{sheet,mol}; do
    cmp "$out/examples/${file##*/}" "examples/${file##*/}" || die "${file##*/} is not what its script makes"
done

echo "== The C headers against the functions that the code exports"
python3 tests/prototypes.py "$out/prototypes"

echo "== C tests"
compile="cc -std=c11 -Wall -Wextra -Werror -O1 -g -I include"
$compile tests/c/flat_test.c "$flat" -o "$out/flat_test"
$compile tests/c/host_test.c "$host" -pthread -o "$out/host_test"
$compile examples/host.c "$host" -o "$out/host"
$compile tests/c/host_steps.c "$host" -o "$out/host_steps"
$compile examples/carry.c "$host" -o "$out/carry"
$compile tests/c/carry_steps.c "$host" -o "$out/carry_steps"
$compile examples/minimal.c "$host" -o "$out/minimal"
"$out/flat_test"
"$out/host_test"

echo "== The host of twenty lines: the rings that ringlist prints, without its last line"
for sheet in examples/*.sheet; do
    "$out/minimal" <"$sheet" >"$out/minimal.text" || die "minimal on $sheet: exit code $?"
    "$ringlist" <"$sheet" | sed '$d' | cmp - "$out/minimal.text" || die "minimal on $sheet: not the rings of ringlist"
done
if "$out/minimal" </dev/null 2>"$out/minimal.text"; then die "minimal on no sheet: exit code 0"; fi
echo "refused 1" | cmp - "$out/minimal.text" || die "minimal on no sheet: not refused by rule 1"
if "$out/minimal" <examples/cubane.sheet >/dev/full; then die "minimal on a full disk: exit code 0"; fi
sed -n '/^```c$/,/^```$/p' README.md | sed '1d;$d' >"$out/minimal.text"
sed 1d examples/minimal.c | cmp - "$out/minimal.text" || die "README.md does not have examples/minimal.c as it is"

echo "== molrings: what ringlist prints for the sheet with the same bonds"
for molfile in examples/*.mol; do
    python3 tests/molfile_sheet.py <"$molfile" >"$out/molfile.sheet"
    "$ringlist" <"$out/molfile.sheet" >"$out/sheet.text"
    "$molrings" <"$molfile" >"$out/molfile.text" || die "molrings on $molfile: exit code $?"
    cmp "$out/sheet.text" "$out/molfile.text" || die "molrings on $molfile: not what ringlist prints for its sheet"
    # Where there is an example sheet, the skeleton has its numbers, and hydrogens are in no ring.
    sheet=${molfile%.mol}.sheet
    [ ! -f "$sheet" ] || "$ringlist" <"$sheet" | sed '$d' | cmp - <(sed '$d' "$out/molfile.text") ||
        die "molrings on $molfile: not the rings of $sheet"
done
"$ringlist" <examples/gonane.sheet | cmp - <("$molrings" <examples/gonane.mol) ||
    die "molrings on examples/gonane.mol: not what ringlist prints for examples/gonane.sheet"
"$molrings" </dev/null >"$out/molfile.text" || die "molrings on no molfile: exit code $?"
echo "refused  18" | cmp - "$out/molfile.text" || die "molrings on no molfile: not refused by rule 18"
python3 tests/openbabel_test.py "$root/crates" "$out/openbabel"

echo "== Rust tests"
(cd tests/rust && cargo test --release --offline)

echo "== Killing the example host, and the program that carries its states over"
python3 tests/kill_test.py "$out/host" "$out/host_steps" "$out/carry" "$out/carry_steps" "$ringlist" examples \
    "$out/kill"

echo "== C tests, ringlist, molrings, hosts and carry under valgrind"
$checker "$out/flat_test" || die "flat_test under valgrind: exit code $?"
$checker "$out/host_test" without-stack || die "host_test under valgrind: exit code $?"
$checker "$ringlist" <examples/dodecahedrane.sheet >"$out/checked.text" || die "ringlist under valgrind: exit code $?"
"$ringlist" <examples/dodecahedrane.sheet | cmp - "$out/checked.text" || die "ringlist under valgrind: another output"
$checker "$molrings" <examples/caffeine.mol >"$out/molfile.text" || die "molrings under valgrind: exit code $?"
"$molrings" <examples/caffeine.mol | cmp - "$out/molfile.text" || die "molrings under valgrind: another output"
$checker "$out/minimal" <examples/dodecahedrane.sheet >"$out/minimal.text" || die "minimal under valgrind: exit code $?"
sed '$d' "$out/checked.text" | cmp - "$out/minimal.text" || die "minimal under valgrind: another output"
rm -f "$out/state" "$out/rings"
for run in first second; do
    $checker "$out/host" examples/cubane.sheet "$out/state" "$out/rings" 50 ||
        die "host under valgrind, $run run: exit code $?"
    "$ringlist" <examples/cubane.sheet | cmp - "$out/rings" || die "host under valgrind, $run run: another output"
done
cp "$out/state" "$out/state.text"
for way in over back back over; do
    $checker "$out/carry" "$way" examples/cubane.sheet "$out/state" "$out/rings" ||
        die "carry $way under valgrind: exit code $?"
done
cmp "$out/state.text" "$out/state" || die "carry under valgrind: another state"

echo "== Rust tests under valgrind, one case in 200"
rust=$(rustc -vV | sed -n 's/^host: //p')
runner=CARGO_TARGET_$(echo "$rust" | tr 'a-z-' 'A-Z_')_RUNNER
(cd tests/rust && env FLAT_SAMPLE=200 "$runner=$checker" cargo test --release --offline)

echo "== All tests passed"
