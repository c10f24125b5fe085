SELECT child, school, kind, day FROM place WHERE child % 10 = 1 ORDER BY child;
SELECT child, school FROM left_list ORDER BY child, school;
SELECT draw, round, school, day FROM draw ORDER BY draw;
SELECT draws FROM meta;
