"""The parts of the fuzzer of forms (tests/fuzz_forms.py)."""
