#!/bin/sh
# Says whether docs/house.toml is the document that the tests read as the house.
set -eu
cd "$(dirname "$0")/.."
sed -n '/r#"/,/^"#;$/p' crates/bac_tests/src/codecs/memory/stores.rt | sed -e '1s/^.*r#"//' -e '$d' | cmp - docs/house.toml
echo "docs/house.toml is the house of the tests"
