"""The triggers of a layer in a GeoPackage: what is changed goes into the list of what is pending, and into the log."""

from .model import Layer

BODIES = {
    "overlay_{0}_insert": """AFTER INSERT ON {layer} BEGIN
 INSERT INTO overlay_log (at, who, change, layer, fid, what)
  SELECT strftime('%Y-%m-%dT%H:%M:%fZ', 'now'), who, change, {name}, NEW.{key}, 'insert' FROM overlay_who;
 INSERT INTO overlay_pending (layer, fid) VALUES ({name}, NEW.{key}); END""",
    "overlay_{0}_delete": """AFTER DELETE ON {layer} BEGIN
 INSERT INTO overlay_log (at, who, change, layer, fid, what, geom, old)
  SELECT strftime('%Y-%m-%dT%H:%M:%fZ', 'now'), who, change, {name}, OLD.{key}, 'delete', OLD.{geom}, {old}
  FROM overlay_who;
 INSERT INTO overlay_pending (layer, fid) VALUES ({name}, OLD.{key}); END""",
    "overlay_{0}_update": """AFTER UPDATE ON {layer} BEGIN
 INSERT INTO overlay_log (at, who, change, layer, fid, what, geom, old)
  SELECT strftime('%Y-%m-%dT%H:%M:%fZ', 'now'), who, change, {name}, OLD.{key},
  CASE WHEN OLD.{key} IS NOT NEW.{key} THEN 'moved to ' || NEW.{key} ELSE 'update' END, OLD.{geom}, {old}
  FROM overlay_who;
 INSERT INTO overlay_pending (layer, fid) SELECT {name}, OLD.{key} WHERE {changes};
 INSERT INTO overlay_pending (layer, fid) SELECT {name}, NEW.{key} WHERE OLD.{key} IS NOT NEW.{key}; END""",
}


OLD = ("{0}, CASE typeof({1}) WHEN 'blob' THEN hex({1}) WHEN 'real' THEN CASE WHEN abs({1}) < 1e308"
       " THEN json(printf('%!.17g', {1})) END ELSE {1} END")  # all digits of a double; no infinite one


def quoted(name: str) -> str:
    """A name as SQL has it."""
    return '"' + name.replace('"', '""') + '"'


def text(value: str) -> str:
    """A text as SQL has it."""
    return "'" + value.replace("'", "''") + "'"


def near(search: str, layer: Layer, waits: bool) -> str:
    """The condition of a search by boxes, and where waits that a change is pending."""
    found = search.format(key=quoted(layer.key), index=quoted(layer.index()))
    pending = f" OR t.{quoted(layer.key)} IN (SELECT fid FROM overlay_pending WHERE layer = {text(layer.name)})"
    return found + pending * waits


def triggers(layer: Layer, others: list[str]) -> dict[str, str]:
    """The triggers of a layer with some other columns, by their names, as they are to stand in the schema."""
    old = ", ".join(OLD.format(text(name), f"OLD.{quoted(name)}") for name in others)
    watched = dict.fromkeys([layer.geom, layer.key, *([layer.ident] if layer.ident else [])])
    changes = " OR ".join(f"OLD.{quoted(name)} IS NOT NEW.{quoted(name)}" for name in watched)
    words = {"layer": quoted(layer.name), "name": text(layer.name), "key": quoted(layer.key),
             "geom": quoted(layer.geom), "old": f"json_object({old})", "changes": changes}
    return {name.format(layer.name): f"CREATE TRIGGER {quoted(name.format(layer.name))} {body.format(**words)}"
            for name, body in BODIES.items()}
