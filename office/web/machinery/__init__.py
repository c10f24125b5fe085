"""What recurs: rows of requests, steps of several people, long work, forms, tables, and the shapes
of pictures, whose colours are in deploy/site/ui.css.
"""
