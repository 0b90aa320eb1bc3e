"""Holds a JSON document to a schema, for the words of JSON schema that docs/desk.schema.json uses; any other word is
an error, so that none is passed over."""
import re

TYPES = {"object": dict, "array": list, "string": str, "boolean": bool, "null": type(None)}
SAY_NOTHING = {"$schema", "$defs", "title"}


def is_a(value, name):
    if name in ("integer", "number"):
        kinds = int if name == "integer" else (int, float)
        return isinstance(value, kinds) and not isinstance(value, bool)
    return isinstance(value, TYPES[name])


def same(a, b):
    """Equal, and true is not 1."""
    return type(a) is type(b) and a == b


class Checker:
    def __init__(self, schema):
        self.top = schema

    def faults(self, value, schema=None, at="$"):
        """Lines that say what does not fit, and where."""
        found = []
        schema = self.top if schema is None else schema
        for word, says in schema.items():
            if word not in SAY_NOTHING:
                check = getattr(self, "on_" + word.lstrip("$"))
                found += check(value, says, schema, at)
        return found

    def on_ref(self, value, says, schema, at):
        found = self.top
        for part in says[2:].split("/"):
            found = found[part]
        return self.faults(value, found, at)

    def on_type(self, value, says, schema, at):
        names = says if isinstance(says, list) else [says]
        return [] if any(is_a(value, name) for name in names) else ["%s: %r is no %s" % (at, value, " or ".join(names))]

    def on_enum(self, value, says, schema, at):
        return [] if any(same(value, one) for one in says) else ["%s: %r is none of %s" % (at, value, says)]

    def on_const(self, value, says, schema, at):
        return self.on_enum(value, [says], schema, at)

    def on_minimum(self, value, says, schema, at):
        return ["%s: %r is below %r" % (at, value, says)] if is_a(value, "number") and value < says else []

    def on_maximum(self, value, says, schema, at):
        return ["%s: %r is above %r" % (at, value, says)] if is_a(value, "number") and value > says else []

    def on_pattern(self, value, says, schema, at):
        return ["%s: %r is not %s" % (at, value, says)] if isinstance(value, str) and not re.search(says, value) else []

    def on_items(self, value, says, schema, at):
        if not isinstance(value, list):
            return []
        return [fault for i, one in enumerate(value) for fault in self.faults(one, says, "%s[%d]" % (at, i))]

    def on_anyOf(self, value, says, schema, at):
        tried = [self.faults(value, one, at) for one in says]
        return [] if not all(tried) else min(tried, key=len)

    def on_required(self, value, says, schema, at):
        if not isinstance(value, dict):
            return []
        return ["%s: %s is missing" % (at, name) for name in says if name not in value]

    def on_properties(self, value, says, schema, at):
        if not isinstance(value, dict):
            return []
        return [fault for name in value if name in says
                for fault in self.faults(value[name], says[name], "%s.%s" % (at, name))]

    def on_patternProperties(self, value, says, schema, at):
        if not isinstance(value, dict):
            return []
        return [fault for name in value for pattern in says if re.search(pattern, name)
                for fault in self.faults(value[name], says[pattern], "%s.%s" % (at, name))]

    def on_additionalProperties(self, value, says, schema, at):
        assert says is False
        known = set(schema.get("properties", {}))
        patterns = schema.get("patternProperties", {})
        return ["%s: %s is not known" % (at, name) for name in (value if isinstance(value, dict) else ())
                if name not in known and not any(re.search(pattern, name) for pattern in patterns)]


def keys(schema):
    """Every key that a schema names."""
    found = set()
    if isinstance(schema, dict):
        found |= set(schema.get("properties", {}))
        for part in schema.values():
            found |= keys(part)
    elif isinstance(schema, list):
        for part in schema:
            found |= keys(part)
    return found
