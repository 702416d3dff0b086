"""What the proofs of tests/rtl/test_rtl_formal.py share: models, netlists, and the checks of both."""
