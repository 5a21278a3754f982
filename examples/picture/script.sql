CREATE TABLE A (K INTEGER, X INTEGER);
CREATE TABLE B (Y INTEGER, V INTEGER);
CREATE TABLE C (U INTEGER, W INTEGER);
CREATE INDEX BY_U ON C (U);
LOAD 'a.csv' INTO A;
LOAD 'b.csv' INTO B;
LOAD 'c.csv' INTO C;
COMPILE Q AS SELECT A.K, C.W FROM A, B, C WHERE A.X = B.Y AND B.V = C.U;
EXPLAIN Q;
RUN Q;
-- A fourth of the pairs of A and B are equal in X and Y, and 24 of 104 pairs of B and C in V and U: level 22 is 1/4.
AUDIT Q AT 22, 22;
