"""The black-box cases of the program. Each module has the cases of one topic. tests/run.py runs them."""
