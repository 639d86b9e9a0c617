"""Derived rules: functions that make proofs of proofs by the methods of the kernel."""
