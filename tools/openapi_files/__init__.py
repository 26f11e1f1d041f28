"""What tools/openapi.py is made of."""
