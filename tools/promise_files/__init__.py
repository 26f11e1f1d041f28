"""What tools/promises.py is made of."""
