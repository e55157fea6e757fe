CREATE TABLE schema (number INTEGER NOT NULL) STRICT;
CREATE TABLE history2 (
  entry INTEGER PRIMARY KEY,
  tag TEXT NOT NULL UNIQUE,
  client INTEGER NOT NULL,
  device BLOB NOT NULL,
  component TEXT NOT NULL,
  version_old TEXT NOT NULL,
  version_new TEXT NOT NULL,
  digest BLOB NOT NULL,
  flags INTEGER NOT NULL,
  state INTEGER NOT NULL,
  reason INTEGER NOT NULL,
  time_added INTEGER NOT NULL,
  time_changed INTEGER NOT NULL,
  duration INTEGER NOT NULL,
  protocol TEXT,
  retry_of INTEGER
) STRICT;
INSERT INTO schema VALUES (2);
INSERT INTO history2 VALUES (
  1, 'u-2', 1, x'a7350c19dd118a9c712500f1b622f39299753224', 'com.example.hub', '1.0.0', '1.1.0',
  x'9770ab3285028befb05af65f2ad3bd2d36afb87626032bc8a9ac195219be71d7', 0, 2, 0, 500, 500, 0, NULL, NULL
);
