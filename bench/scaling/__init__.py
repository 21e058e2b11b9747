"""What bench/scale.py measures, and how it is drawn."""
