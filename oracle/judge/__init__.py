"""The oracle beside the reading."""
