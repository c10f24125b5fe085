"""The lists of an office: which there are (`worklists`), their rows and columns (`register_rows`,
`draw_rows`), their titles and heads (`on_screen`), and what of a list is chosen and kept. The first
screen is in web/home.
"""
