"""What tools/wrong_bodies.py is made of: the prover, the edits, a crate in which they are tried, and the judging."""
