"""What docs/api.py is made of."""
