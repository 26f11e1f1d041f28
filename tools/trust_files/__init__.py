"""What tools/trust.py is made of."""
