-- the packets around the moment at which the first station lost the satellite
SELECT gentime, pname, link FROM tm
WHERE pname IN ('payload', 'science')
  AND gentime >= '2026-03-01T09:02:58' AND gentime < '2026-03-01T09:03:02';
