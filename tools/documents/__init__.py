"""What tools/documents.py is made of: a module for each kind of thing that documents say and the sources decide."""
