"""Files that come and go: sheets, workbooks, pages and pictures, and processes of their own that
read or lay out what somebody sent. A page that is printed is in the folder `printed` of the feature
that fills it; here is what several of them include.
"""
