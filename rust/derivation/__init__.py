"""The rules by which rust/derive.py makes plain Rust of the Rattle sources."""
