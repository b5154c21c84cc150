"""What tools/package.py is made of: the manual, and what is installed and packed."""
