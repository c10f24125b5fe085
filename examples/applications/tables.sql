SELECT code, name, pan, criteria FROM school ORDER BY code;
SELECT child, name, east, north, looked_after, flags, siblings FROM child ORDER BY child;
SELECT * FROM application ORDER BY child;
SELECT * FROM place ORDER BY child;
PRAGMA integrity_check;
