#!/bin/sh
# assemble.sh [SRC]: builds the oracle and the other tools from the Rust of SRC.
#
# SRC is the folder that holds src/stream.rs, src/adwin.rs, .. of betula-cluster; without an argument it is
# ../shared/docs/src beside the repository. The Rust is copied to target/oracle/rust, never into the repository, and
# 7 lines of the copy are edited and 6 appended, as marked below; its union-find is copied once more, with 6 lines that
# count. Needs cargo alone: no registry, no other package.
set -eu
cd "$(dirname "$0")/../.."
SRC=${1:-../shared/docs/src}
[ -d "$SRC/src" ] && SRC=$SRC/src
FILES="stream adwin feature types kernels"
RUST=target/oracle/rust
for f in $FILES; do
  [ -f "$SRC/$f.rs" ] || { echo "assemble.sh: no $f.rs in $SRC (usage: assemble.sh [SRC])" >&2; exit 2; }
done
mkdir -p $RUST.new
for f in $FILES; do cp "$SRC/$f.rs" $RUST.new/$f.rs; chmod u+w $RUST.new/$f.rs; done

# The library functions become document 01's stand-ins. An inherent method of f64 always wins over a trait's, so the
# names must change: four times exp2 and once log2 in stream.rs, twice ln in adwin.rs.
sed -i 's/\.exp2()/.exp2_standin()/g; s/\.log2()/.log2_standin()/g' $RUST.new/stream.rs
sed -i 's/\.ln()/.ln_standin()/g' $RUST.new/adwin.rs

# Three lines appended to each of two files: the stand-ins in scope, and a child module, which may read private fields.
for f in stream adwin; do
  printf 'use crate::standins::Standins as _;\n#[path = "../../../tools/oracle/own/%s_figures.rs"]\npub mod figures;\n' $f >> $RUST.new/$f.rs
done

# Exactly these edits: another count means that the source is another one.
n=$(for f in $FILES; do diff "$SRC/$f.rs" $RUST.new/$f.rs || true; done | grep -c '^>')
[ "$n" = 13 ] || { echo "assemble.sh: expected 7 edited and 6 appended lines, got $n" >&2; exit 1; }

# A counting copy of the union-find beside it, so that what is timed does not count: finds, and turns of find's loop.
sed -n '/^struct UnionFind/,/^}/p; /^impl UnionFind/,/^}/p' "$SRC/stream.rs" | sed '
  s/^struct/pub struct/; s/^    fn/    pub fn/
  s/^    rank: Vec<u8>,/&\n    pub finds: u64,\n    pub steps: u64,/
  s/^            rank: vec!\[0; n\],/&\n            finds: 0,\n            steps: 0,/
  s/^    pub fn find(.*{$/&\n        self.finds += 1;/
  s/^            x = self.parent\[x\];/&\n            self.steps += 1;/' > $RUST.new/counting.rs
n=$(grep -cE '(finds|steps)(:| \+=)' $RUST.new/counting.rs)
[ "$n" = 6 ] || { echo "assemble.sh: expected 6 counting lines, got $n" >&2; exit 1; }

# An unchanged copy keeps its time, so that cargo has nothing to do.
mkdir -p $RUST
for f in $FILES counting; do cmp -s $RUST.new/$f.rs $RUST/$f.rs || cp $RUST.new/$f.rs $RUST/$f.rs; done
rm -r $RUST.new

CARGO_TARGET_DIR=$PWD/target/oracle/build cargo build --quiet --release --offline --manifest-path tools/oracle/Cargo.toml ${ORACLE_FEATURES:+--features "$ORACLE_FEATURES"}
echo "built: target/oracle/build/release/{oracle,scripts,compare,vectors,limits,bench}"
