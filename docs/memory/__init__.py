"""The parts of docs/memory.py."""
