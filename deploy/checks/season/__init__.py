"""A whole season in the office's application, as people live it in their browsers."""
