#!/bin/sh
# For `cbmc --external-sat-solver`, which calls it with a formula, and removes the formula afterwards.
exec lrup-solve -j 1 --with-formula --proofs kept-%n "$1"
