"""A second reading of document 01, by plain recursion."""
