"""Unit tests of the scripts: each check with an input that it must refuse. `./test.sh docs` runs them."""
