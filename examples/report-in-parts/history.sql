CREATE TABLE schema (number INTEGER NOT NULL) STRICT;
CREATE TABLE history2 (
  entry INTEGER PRIMARY KEY,
  tag TEXT NOT NULL UNIQUE,
  client INTEGER NOT NULL,
  device BLOB NOT NULL,
  component TEXT NOT NULL,
  version_old TEXT NOT NULL,
  version_new TEXT NOT NULL,
  digest BLOB NOT NULL,
  flags INTEGER NOT NULL,
  state INTEGER NOT NULL,
  reason INTEGER NOT NULL,
  time_added INTEGER NOT NULL,
  time_changed INTEGER NOT NULL,
  duration INTEGER NOT NULL,
  protocol TEXT,
  retry_of INTEGER
) STRICT;
INSERT INTO schema VALUES (2);
INSERT INTO history2 VALUES (
  1, 't1', 1, x'3a49404014b67758fd430a9d09ba0807820b5c47', 'com.example.hub', '1.0.0', '1.1.0',
  x'9770ab3285028befb05af65f2ad3bd2d36afb87626032bc8a9ac195219be71d7', 0, 2, 0, 500, 500, 0, NULL, NULL
), (
  2, 't2', 1, x'89198cbf7b482857d898aad04f7bec934238450f', 'com.example.hub', '1.0.0', '1.1.0',
  x'9770ab3285028befb05af65f2ad3bd2d36afb87626032bc8a9ac195219be71d7', 0, 100, 0, 500, 500, 0, NULL, NULL
), (
  3, 't3', 1, x'9f5d520391f05ff08e11bea611dd7fd67f4532e2', 'com.example.hub', '1.0.0', '1.1.0',
  x'9770ab3285028befb05af65f2ad3bd2d36afb87626032bc8a9ac195219be71d7', 0, 3, 0, 500, 500, 0, NULL, NULL
);
