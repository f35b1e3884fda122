-- Tables beside tm: one for each of two kinds of packets.
CREATE TABLE housekeeping LIKE tm;
CREATE TABLE science LIKE tm;
