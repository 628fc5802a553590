"""What is said to databases, for SQLite and PostgreSQL alike: ? is a value, {..} a name that an engine has quoted."""

from __future__ import annotations

# KEY is a whole number that the database gives; these are listed for people, in the order of their making.
LISTED = {
    "overlay_kept": "id KEY, name TEXT NOT NULL UNIQUE, kind TEXT NOT NULL, a TEXT, b TEXT, expression TEXT,"
                    " cell BIGINT",
    "overlay_pending": "id KEY, layer TEXT NOT NULL, fid BIGINT NOT NULL",
    "overlay_problem": "id KEY, layer TEXT NOT NULL, fid BIGINT NOT NULL, what TEXT NOT NULL, kept TEXT",
    "overlay_log": "id KEY, at TEXT NOT NULL, who TEXT, change BIGINT, layer TEXT NOT NULL, fid BIGINT NOT NULL,"
                   " what TEXT NOT NULL, geom BLOB, old TEXT",
    "overlay_rule": "id KEY, must TEXT NOT NULL, a TEXT NOT NULL, b TEXT, least DOUBLE PRECISION NOT NULL,"
                    " reach BIGINT NOT NULL",
    "overlay_violation": "id KEY, rule BIGINT NOT NULL, a BIGINT, b BIGINT, a_id TEXT, b_id TEXT,"
                         " area DOUBLE PRECISION, bound DOUBLE PRECISION, width DOUBLE PRECISION,"
                         " minx DOUBLE PRECISION,"
                         " miny DOUBLE PRECISION, maxx DOUBLE PRECISION, maxy DOUBLE PRECISION, outline BLOB, who TEXT,"
                         " why TEXT, accepted TEXT",
}
OWN = {
    "overlay_state": "one INTEGER PRIMARY KEY CHECK (one = 1), form INTEGER NOT NULL, version BIGINT NOT NULL, at TEXT,"
                     " schema_was BIGINT NOT NULL, factor TEXT NOT NULL",
    "overlay_layer": "name TEXT PRIMARY KEY, geom TEXT NOT NULL, key TEXT NOT NULL, ident TEXT, since TEXT",
}
PAIRS = ("id KEY, a BIGINT NOT NULL, b BIGINT NOT NULL, a_id TEXT, b_id TEXT, relation TEXT NOT NULL,"
         " area DOUBLE PRECISION, bound DOUBLE PRECISION")
CELLS = "id KEY, i BIGINT NOT NULL, j BIGINT NOT NULL, area DOUBLE PRECISION, bound DOUBLE PRECISION"
INDEXES_OF_TABLES = (
    "CREATE INDEX IF NOT EXISTS overlay_log_change ON overlay_log (change)",
    "CREATE INDEX IF NOT EXISTS overlay_log_fid ON overlay_log (layer, fid)",
    "CREATE INDEX IF NOT EXISTS overlay_problem_fid ON overlay_problem (layer, fid)",
    "CREATE INDEX IF NOT EXISTS overlay_violation_a ON overlay_violation (rule, a)",
    "CREATE INDEX IF NOT EXISTS overlay_violation_b ON overlay_violation (rule, b)",
    "CREATE INDEX IF NOT EXISTS overlay_violation_x ON overlay_violation (rule, minx)",
    "CREATE INDEX IF NOT EXISTS overlay_violation_width ON overlay_violation (rule, width)")
INDEXES = {PAIRS: ("a, b", "b"), CELLS: ("i, j",)}  # the first of each is unique

BEGIN_STATE = "INSERT INTO overlay_state (one, form, version, at, schema_was, factor) VALUES (1, ?, 0, NULL, 0, ?)"
STATE = "SELECT form, version, at, schema_was, factor FROM overlay_state"
SCHEMA_IS = "UPDATE overlay_state SET schema_was = ?"
NEXT = "UPDATE overlay_state SET version = version + 1, at = ?"
LAYERS = "SELECT name, geom, key, ident FROM overlay_layer ORDER BY name"
ADD_LAYER = "INSERT INTO overlay_layer (name, geom, key, ident, since) VALUES (?, ?, ?, ?, ?)"
SET_FORM = "UPDATE overlay_state SET form = ?"
SET_LAYER = "UPDATE overlay_layer SET geom = ?, key = ? WHERE name = ?"
DROP_LAYER = "DELETE FROM overlay_layer WHERE name = ?"
KEPT = "SELECT name, kind, a, b, expression, cell FROM overlay_kept ORDER BY name"
ADD_KEPT = "INSERT INTO overlay_kept (name, kind, a, b, expression, cell) VALUES (?, ?, ?, ?, ?, ?)"
DROP_KEPT = "DELETE FROM overlay_kept WHERE name = ?"

LOG = "SELECT coalesce(change, id), at, who, layer, fid, what, id FROM overlay_log"
LOG_OF = f"{LOG} WHERE layer = ? AND fid = ? ORDER BY id DESC LIMIT ?"
LOG_AFTER = f"{LOG} WHERE id > ? ORDER BY id LIMIT ?"
LOG_OF_CHANGE = ("SELECT id, layer, fid, what, geom, old FROM overlay_log WHERE change = ?"
                 " OR (change IS NULL AND id = ?) ORDER BY id DESC")
LOG_SINCE = ("SELECT coalesce(change, id), what, geom, old FROM overlay_log WHERE layer = ? AND fid = ? AND id > ?"
             " AND coalesce(change, id) <> ? ORDER BY id LIMIT 1")
SINCE = "SELECT since FROM overlay_layer WHERE name = ?"
SET_SINCE = "UPDATE overlay_layer SET since = ? WHERE since < ?"
BEGIN_SINCE = ("UPDATE overlay_layer SET since ="
               " coalesce((SELECT min(l.at) FROM overlay_log l WHERE l.layer = overlay_layer.name), ?)")
LOG_BEFORE = "SELECT count(*) FROM overlay_log WHERE at < ?"
PURGE = "DELETE FROM overlay_log WHERE at < ?"
FIRST_AFTER = "SELECT coalesce(min(id), 9223372036854775807) FROM overlay_log WHERE at > ?"
MOVED = "SELECT id, what FROM overlay_log WHERE layer = ? AND id >= ? AND what LIKE 'moved to %' ORDER BY id DESC"
WAS = ("SELECT id, fid, what, geom, old FROM overlay_log WHERE id IN (SELECT min(id) FROM overlay_log WHERE layer = ?"
       " AND id >= ? AND fid > ? GROUP BY fid ORDER BY fid LIMIT ?) ORDER BY fid")
UNCHANGED = "NOT EXISTS (SELECT 1 FROM overlay_log l WHERE l.layer = ? AND l.fid = t.{key} AND l.id >= ?)"
PENDING = "SELECT id, layer, fid FROM overlay_pending ORDER BY id"
SOME_PENDING = f"{PENDING} LIMIT ?"
PENDING_OF = "SELECT layer, count(*) FROM overlay_pending GROUP BY layer ORDER BY layer"
ADD_PENDING = "INSERT INTO overlay_pending (layer, fid) VALUES (?, ?)"
ADD_ALL_PENDING = "INSERT INTO overlay_pending (layer, fid) SELECT ?, t.{key} FROM {place} t ORDER BY t.{key}"
DONE = "DELETE FROM overlay_pending WHERE id = ?"
DROP_PENDING = "DELETE FROM overlay_pending WHERE layer = ?"
PROBLEMS = "SELECT layer, fid, what, kept FROM overlay_problem ORDER BY layer, fid, what"
PROBLEMS_OF = "SELECT what, count(*) FROM overlay_problem GROUP BY what ORDER BY what"
ADD_PROBLEM = "INSERT INTO overlay_problem (layer, fid, what, kept) VALUES (?, ?, ?, ?)"
DROP_PROBLEM = "DELETE FROM overlay_problem WHERE layer = ? AND fid = ?"
DROP_PROBLEMS = "DELETE FROM overlay_problem WHERE layer = ?"
DROP_PROBLEMS_OF_KEPT = "DELETE FROM overlay_problem WHERE kept = ?"

RULES = "SELECT id, must, a, b, least, reach FROM overlay_rule ORDER BY id"
ADD_RULE = "INSERT INTO overlay_rule (must, a, b, least, reach) VALUES (?, ?, ?, ?, ?)"
DROP_RULE = "DELETE FROM overlay_rule WHERE id = ?"
VIOLATION = "a, b, a_id, b_id, area, bound, width, minx, miny, maxx, maxy, outline"
VIOLATIONS = f"SELECT id, rule, who, why, accepted, {VIOLATION} FROM overlay_violation"
ADD_VIOLATION = f"INSERT INTO overlay_violation (rule, who, why, accepted, {VIOLATION}) VALUES (?{', ?' * 15})"
DROP_VIOLATION = "DELETE FROM overlay_violation WHERE id = ?"
DROP_VIOLATIONS = "DELETE FROM overlay_violation WHERE rule = ?"
ACCEPT = "UPDATE overlay_violation SET who = ?, why = ?, accepted = ? WHERE id = ?"
OF_FIRST, OF_SECOND = " WHERE rule = ? AND a = ?", " WHERE rule = ? AND b = ?"
OF_BOX = " WHERE rule = ? AND minx <= ? AND maxx >= ? AND miny <= ? AND maxy >= ?"

FEATURES = "SELECT count(*) FROM {place}"
COUNT = "SELECT count(*) FROM {result}"
UNANSWERED = "SELECT count(*) FROM {result} WHERE area IS NULL"
PAIR_ROWS = "SELECT a, b, a_id, b_id, relation, area, bound FROM {result}"
ADD_PAIR = "INSERT INTO {result} (a, b, a_id, b_id, relation, area, bound) VALUES (?, ?, ?, ?, ?, ?, ?)"
DROP_A = "DELETE FROM {result} WHERE a = ?"
DROP_B = "DELETE FROM {result} WHERE b = ?"
CELL_ROWS = "SELECT i, j, area, bound FROM {result}"
ADD_CELL = "INSERT INTO {result} (i, j, area, bound) VALUES (?, ?, ?, ?)"
DROP_CELL = "DELETE FROM {result} WHERE i = ? AND j = ?"

MAKE_ASKED = "CREATE TEMP TABLE IF NOT EXISTS overlay_asked (fid BIGINT PRIMARY KEY)"
NO_ASKED = "DELETE FROM overlay_asked"
ADD_ASKED = "INSERT INTO overlay_asked (fid) VALUES (?)"
IS_ASKED = "WHERE t.{key} IN (SELECT fid FROM overlay_asked)"
MAKE_BOXES = ("CREATE TEMP TABLE IF NOT EXISTS overlay_boxes (minx DOUBLE PRECISION, miny DOUBLE PRECISION,"
              " maxx DOUBLE PRECISION, maxy DOUBLE PRECISION)")
NO_BOXES = "DELETE FROM overlay_boxes"
ADD_BOX = "INSERT INTO overlay_boxes (minx, miny, maxx, maxy) VALUES (?, ?, ?, ?)"
SEEN = "SELECT id, digest, minx, miny, maxx, maxy FROM {index} WHERE id IN (SELECT fid FROM overlay_asked)"
DIGESTS = "SELECT id, digest FROM {index}"
EXTENT = "SELECT min(minx), min(miny), max(maxx), max(maxy) FROM {index}"
SIZES = "SELECT count(*), avg(maxx - minx), avg(maxy - miny) FROM {index}"
ADD_SEEN = "INSERT INTO {index} (id, digest, minx, miny, maxx, maxy) VALUES (?, ?, ?, ?, ?, ?)"
DROP_SEEN = "DELETE FROM {index} WHERE id = ?"
