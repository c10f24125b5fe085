"""What an office does beside the program: what its application shares, whose screens are in `web`,
and the audit.

`command` starts the audit and the commands of an administrator. They need Debian's Python 3.11, and
python3-openpyxl where an Excel file is read or written.
"""
