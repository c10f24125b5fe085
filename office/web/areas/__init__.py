"""The catchment areas of schools, from a file that an officer adds: in a large register alone."""
