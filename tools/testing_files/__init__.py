"""What tools/testing.py is made of."""
