-- Every packet goes into tm, and those of APID 100 and 101 into tables of their own, too.
CREATE STREAM full AS SELECT * FROM tm_in WHERE apid = 101 AND length > 6;
INSERT INTO tm SELECT * FROM tm_in;
INSERT INTO housekeeping SELECT * FROM tm_in WHERE apid = 100;
INSERT INTO science SELECT * FROM full;
