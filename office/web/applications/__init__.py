"""Applications before they are in the register: the staging table and its files, what is wrong in a
row (`row_check`) and in the whole table (`table_check`), homes on the map, and the pictures of days
and of first preferences (`pictures`).
"""
