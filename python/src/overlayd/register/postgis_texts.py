"""What PostgreSQL alone is told: functions of triggers, the search by boxes, and what tells one schema from another.

Functions of triggers run with the rights of who made the register, by a fixed path of schemas: who may edit a layer
need have no rights on the register's own tables, and nobody else makes triggers that call them.
"""

MARK = """CREATE OR REPLACE FUNCTION overlay_mark() RETURNS trigger LANGUAGE plpgsql SECURITY DEFINER
SET search_path = overlay, {postgis}, pg_temp AS $$
DECLARE layer text := TG_ARGV[0]; key text := TG_ARGV[1]; shape text := TG_ARGV[2]; ident text := TG_ARGV[3];
 columns text; texts text; old_row jsonb; old_key bigint; new_key bigint; old_shape bytea; new_shape bytea;
 old_ident text; new_ident text;
BEGIN
 SELECT coalesce(string_agg(format('($1).%I', attname), ', '), '1 AS nothing') INTO columns FROM pg_catalog.pg_attribute
  WHERE attrelid = TG_RELID AND attnum > 0 AND NOT attisdropped AND atttypid <> '{postgis}.geometry'::regtype;
 texts := format('SELECT ($1).%I, ST_AsBinary(($1).%I), ', key, shape)
  || CASE ident WHEN '' THEN 'NULL' ELSE format('($1).%I::text', ident) END;
 IF TG_OP <> 'INSERT' THEN
  EXECUTE texts INTO old_key, old_shape, old_ident USING OLD;
  EXECUTE format('SELECT to_jsonb(t) FROM (SELECT %s) t', columns) INTO old_row USING OLD;
 END IF;
 IF TG_OP <> 'DELETE' THEN EXECUTE texts INTO new_key, new_shape, new_ident USING NEW; END IF;
 INSERT INTO overlay_log (at, who, change, layer, fid, what, geom, old) VALUES (
  to_char(clock_timestamp() AT TIME ZONE 'UTC', 'YYYY-MM-DD"T"HH24:MI:SS.MS"Z"'),
  coalesce(nullif(translate(current_setting('overlay.who', true), '/', ''), '') || ' by ', '') || session_user || '/'
   || current_setting('application_name'), txid_current(), layer, coalesce(old_key, new_key),
  CASE WHEN TG_OP = 'UPDATE' AND old_key <> new_key THEN 'moved to ' || new_key ELSE lower(TG_OP) END,
  old_shape, old_row::text);
 IF TG_OP = 'UPDATE' AND (old_key, old_shape, old_ident) IS NOT DISTINCT FROM (new_key, new_shape, new_ident) THEN
  RETURN NULL;
 END IF;
 IF TG_OP <> 'INSERT' THEN INSERT INTO overlay_pending (layer, fid) VALUES (layer, old_key); END IF;
 IF TG_OP <> 'DELETE' AND old_key IS DISTINCT FROM new_key THEN
  INSERT INTO overlay_pending (layer, fid) VALUES (layer, new_key);
 END IF;
 RETURN NULL;
END $$"""
CALL = """CREATE OR REPLACE FUNCTION overlay_call() RETURNS trigger LANGUAGE plpgsql AS $$
BEGIN PERFORM pg_notify('overlay', TG_ARGV[0]); RETURN NULL; END $$"""
ALL = """CREATE OR REPLACE FUNCTION overlay_all() RETURNS trigger LANGUAGE plpgsql AS $$
BEGIN RAISE EXCEPTION 'a layer of a register is not truncated: DELETE FROM it'; END $$"""
FUNCTIONS = (MARK, CALL, ALL, "REVOKE EXECUTE ON FUNCTION overlay_mark(), overlay_call(), overlay_all() FROM PUBLIC")

READS = (
    ("", "GRANT USAGE ON SCHEMA overlay TO {role}"), ("", "GRANT SELECT ON ALL TABLES IN SCHEMA overlay TO {role}"),
    ("", "ALTER DEFAULT PRIVILEGES IN SCHEMA overlay GRANT SELECT ON TABLES TO {role}"),
    ("layer", "GRANT SELECT ON {name} TO {role}"))
RIGHTS = {
    "reader": READS,
    "editor": (*READS, ("layer", "GRANT INSERT, UPDATE, DELETE ON {name} TO {role}"),
               ("sequence", "GRANT USAGE ON SEQUENCE {name} TO {role}")),
    "refresher": (*READS, ("table", "GRANT INSERT, UPDATE, DELETE ON {name} TO {role}"),
                  ("", "ALTER DEFAULT PRIVILEGES IN SCHEMA overlay GRANT INSERT, UPDATE, DELETE ON TABLES TO {role}")),
}
# What a refresh writes.
WRITTEN = ("SELECT format('overlay.%I', tablename) FROM pg_tables WHERE schemaname = 'overlay' AND tablename ~"
           " '^overlay_(state|pending|problem|violation|index_.*|result_.*)$'")

TRIGGERS = {"overlay_mark": "AFTER INSERT OR UPDATE OR DELETE ON {layer} FOR EACH ROW",
            "overlay_call": "AFTER INSERT OR UPDATE OR DELETE ON {layer} FOR EACH STATEMENT",
            "overlay_all": "BEFORE TRUNCATE ON {layer} FOR EACH STATEMENT"}
FOUND_TRIGGERS = ("SELECT tgname::text, tgenabled::text, encode(tgargs, 'escape') FROM pg_trigger"
                  " WHERE tgrelid = to_regclass(?) AND NOT tgisinternal AND tgname::text LIKE 'overlay\\_%'")
OTHERS = ("SELECT tgname::text FROM pg_trigger WHERE tgrelid = to_regclass(?) AND NOT tgisinternal"
          " AND tgname::text NOT LIKE 'overlay\\_%' ORDER BY 1")
POSTGIS = ("SELECT n.nspname::text FROM pg_extension e JOIN pg_namespace n ON n.oid = e.extnamespace"
           " WHERE e.extname = 'postgis'")
TABLE = "SELECT c.relkind::text FROM pg_class c WHERE c.oid = to_regclass(?)"
COLUMNS = ("SELECT attname::text, format_type(atttypid, NULL) FROM pg_attribute WHERE attrelid = ?::regclass"
           " AND attnum > 0 AND NOT attisdropped ORDER BY attnum")
KEYS = ("SELECT a.attname::text, format_type(a.atttypid, NULL) FROM pg_index i JOIN pg_attribute a"
        " ON a.attrelid = i.indrelid AND a.attnum = ANY (i.indkey) WHERE i.indrelid = ?::regclass AND i.indisprimary")
# Of the register's layers: which tables and columns they are, and each trigger with what last changed it.
SCHEMA = """SELECT ('x' || substr(md5(coalesce(string_agg(told, ';' ORDER BY told), '')), 1, 15))::bit(60)::bigint
 FROM (SELECT format('%s %s %s %s', l.name, a.attrelid, a.attname, a.atttypid) AS told FROM overlay_layer l
  JOIN pg_attribute a ON a.attrelid = to_regclass(l.place) AND a.attnum > 0 AND NOT a.attisdropped
 UNION ALL SELECT format('%s %s %s %s', l.name, t.oid, t.xmin, t.tgenabled) FROM overlay_layer l
  JOIN pg_trigger t ON t.tgrelid = to_regclass(l.place) AND NOT t.tgisinternal) AS all_told"""
INDEX = ("CREATE TABLE {index} (id BIGINT PRIMARY KEY, digest BYTEA, minx DOUBLE PRECISION, miny DOUBLE PRECISION,"
         " maxx DOUBLE PRECISION, maxy DOUBLE PRECISION)",
         "CREATE INDEX ON {index} USING gist (box(point(minx, miny), point(maxx, maxy)))")
NEAR = ("WHERE t.{key} IN (SELECT i.id FROM overlay_boxes q JOIN {index} i"
        " ON box(point(i.minx, i.miny), point(i.maxx, i.maxy)) && box(point(q.minx, q.miny), point(q.maxx, q.maxy)))")
IN_BOX = "box(point(minx, miny), point(maxx, maxy)) && box(point(?, ?), point(?, ?))"
TYPMOD = ("FROM pg_attribute a JOIN pg_type t ON t.oid = a.atttypid WHERE a.attrelid = ?::regclass AND a.attname = ?")
KIND = f"SELECT coalesce(postgis_typmod_type(a.atttypmod), 'Geometry'), postgis_typmod_srid(a.atttypmod) {TYPMOD}"
SYSTEM = ("SELECT s.auth_name, s.auth_srid FROM spatial_ref_sys s WHERE s.srid ="
          f" (SELECT postgis_typmod_srid(a.atttypmod) {TYPMOD})")
