"""Allocations that fail: what the tests of hibitset_refusals say of their calls, and how each allocation is made to fail."""
