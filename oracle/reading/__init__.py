"""A second reading of document 01, in plain Python and from its words."""
