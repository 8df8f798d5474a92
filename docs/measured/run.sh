#!/usr/bin/env bash
# Proves and builds a measuring program in a copy of the crates that it stands on, and runs it. usage: [WITH=..] run.sh NAME WORD..
# NAME is heap_times, value_times, type_times, find_times, flat_times, rewrite_times, abstract_times, run_times, lex_times, depth_times or image_times;
# WITH is put before the run, as a profiler's call. Files among the words have whole paths. NAME.txt is the program, and NAME_loop.txt, where it is there, what
# a loop keeps: of the function that it names.
set -eu
top=$(cd "$(dirname "$0")/../.." && pwd)
name=$1
shift
copy=$(mktemp -d)
trap 'rm -rf "$copy"' EXIT
first=
kit=
flat='porch_types porch_values porch_flat porch_flat_line porch_flat_text'
case $name in
    flat_times) base=$flat kit=sqlite_items ;;
    rewrite_times) base="$flat porch_objects porch_abstract porch_rewrite" kit=sqlite_items ;;
    abstract_times) base="$flat porch_objects porch_sparse porch_live porch_abstract porch_quick porch_steps" kit=sqlite_items ;;
    run_times)
        base="$flat porch_objects porch_layout porch_metrics porch_heap porch_abstract porch_bytes porch_ends porch_instructions"
        base="$base porch_operations porch_direct porch_frames porch_map porch_code porch_load porch_stack porch_run"
        kit='sqlite_items itoa thiserror' first=none ;;
    find_times) base='porch_types porch_layout porch_metrics porch_find' first=none ;;
    image_times)
        base="$flat porch_layout porch_metrics porch_find porch_points porch_ucf" kit='sqlite_items sha2' first=none ;;
    lex_times) base='porch_tree porch_lex' ;;
    depth_times) base='porch_tree porch_lex porch_walk porch_depth' kit='sqlite_items indexmap thiserror' ;;
    *) base='porch_types porch_values porch_layout porch_metrics porch_heap' first=none ;;
esac
mkdir -p "$copy/crates/$name/src"
for crate in $base; do
    mkdir "$copy/crates/$crate"
    cp -r "$top/crates/$crate"/{src,specs,proofs} "$copy/crates/$crate/"
    grep "^$crate:" "$top/crates.txt" >> "$copy/crates.txt"
done
echo "$name: $base $kit" >> "$copy/crates.txt"
cp "$top/docs/measured/$name.txt" "$copy/crates/$name/src/main.rt"
if [ -e "$top/docs/measured/${name}_loop.txt" ]; then
    loop=$(sed -n 's/^use Rattle\.[a-z_]*\.proofs\.\([a-z_]*\)\.Given.*/\1/p' "$top/docs/measured/${name}_loop.txt")
    mkdir -p "$copy/crates/$name/proofs/$loop"
    cp "$top/docs/measured/${name}_loop.txt" "$copy/crates/$name/proofs/$loop/Invariants.antt"
fi
cd "$copy/crates/$name"
if ! rt run -- $first > log 2>&1; then
    cat log
    exit 1
fi
${WITH:-} "out/$name" "$@"
