"""The end of a season: what is open, the archive and the deletion."""
