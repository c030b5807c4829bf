"""What tools/charts.py draws."""
