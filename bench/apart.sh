#!/usr/bin/env bash
# Times how far two tables of 2^20 rows of numbers are apart, in a program that is proved and built for it.
# usage: bench/apart.sh [ROUNDS]
# Bar: 2 seconds of processor time for both tables and their distance.
. "$(dirname "$0")/../tests/lib/common.sh"
rounds=${1:-3}
need_tool /usr/bin/time time
make_room

mkdir -p crates
cp "$top/HANDLES" .
for name in fz_frac fz_ast metric_values run_values value_distance; do
    mkdir "crates/$name"
    cp -r "$top/crates/$name/src" "$top/crates/$name/specs" "$top/crates/$name/proofs" "crates/$name/"
    grep "^$name:" "$top/crates.txt" >>crates.txt
done
echo "apart_time: anyhow fz_ast metric_values value_distance" >>crates.txt
mkdir -p crates/apart_time/src
cat >crates/apart_time/src/main.rt <<'PROGRAM'
//! How far two tables of numbers are apart.
#![tactic(auto)]

use fz_ast::NoMemory;
use metric_values::Table;
use std::alloc::Global;
use value_distance::table_apart;

fn numbers(alloc: Global, seed: u64) -> Result<Table, NoMemory> {
    let mut column = Vec::new(alloc);
    let mut state = seed;
    for _ in 0..1048576u32 {
        state = state.wrapping_mul(6364136223846793005).wrapping_add(1442695040888963407);
        if let Err(_) = column.push((state >> 34) as i64) {
            return Err(NoMemory);
        }
    }
    Table::numbers(alloc, column)
}

fn main(rt: HostRuntime) -> anyhow::Result<()> {
    let alloc = rt.alloc();
    let (Ok(x), Ok(y)) = (numbers(alloc, 1), numbers(alloc, 2)) else {
        return Ok(());
    };
    if let Ok(count) = table_apart(alloc, &x, &y) {
        println!(rt; "{count}")?;
    }
    Ok(())
}
PROGRAM
(cd crates/apart_time && rt run >build.log 2>&1)
if [ ! -x crates/apart_time/out/apart_time ]; then
    cat crates/apart_time/build.log >&2
    exit 1
fi
for ((round = 1; round <= rounds; round++)); do
    /usr/bin/time -f "%U s of processor time, %e s, %M KiB" crates/apart_time/out/apart_time
done
