"""What tools/gate.py is made of: stands, the proofs side by side, the tests, and what it compares besides."""
