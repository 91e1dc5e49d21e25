"""What examples/check.py checks, a module for each subject."""
