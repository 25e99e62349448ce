"""Machine and rack texts, changed at random: a few values, keys or bytes are not what they were."""
import json

VALUES = [0, 1, 2, 3, -1, 5, 256, 4097, 40000, 200001, 1000001, 3.0, True, False, "", "f", "x y", "Mono", "mono", "start", "end", "none", [], ["f"], {}, {"a": 1}]


def write(value):
    """The value as TOML, tables inline."""
    if isinstance(value, bool):
        return "true" if value else "false"
    if isinstance(value, dict):
        return "{" + ", ".join(f"{json.dumps(key)} = {write(it)}" for key, it in value.items()) + "}"
    if isinstance(value, list):
        return "[" + ", ".join(write(it) for it in value) + "]"
    return json.dumps(value)


def write_text(table):
    return "".join(f"{json.dumps(key)} = {write(value)}\n" for key, value in table.items())


def places(value):
    """Each table or array inside, with each of its keys or numbers."""
    if isinstance(value, dict):
        inside = list(value.items())
    elif isinstance(value, list):
        inside = list(enumerate(value))
    else:
        return
    for key, it in inside:
        yield value, key
        yield from places(it)


def texts_in(value):
    if isinstance(value, str):
        return [value]
    if isinstance(value, dict):
        return [*value, *(text for it in value.values() for text in texts_in(it))]
    if isinstance(value, list):
        return [text for it in value for text in texts_in(it)]
    return []


def change_value(random, table, owner, key):
    was = owner[key]
    kind = random.randrange(6)
    if kind == 0 and isinstance(was, int) and not isinstance(was, bool):
        owner[key] = was + random.choice([-9000, -9, -2, -1, 1, 2, 9, 300, 9000])
    elif kind == 1:
        owner[key] = random.choice(texts_in(table))
    elif kind == 2 and isinstance(was, list) and was:
        was.append(random.choice(was))
    elif kind == 3 and isinstance(was, str):
        owner[key] = was + random.choice(["x", " ", "é", "\t", "-" * 40])
    else:
        owner[key] = random.choice(VALUES)


def change(random, table, found):
    """Changes the table at one of the places found."""
    if random.random() < 0.03:
        # Keys that most texts leave out.
        table[random.choice(["lead", "window", "budget", "gaps", "stock"])] = random.choice(VALUES)
        return
    owner, key = random.choice(found)
    kind = random.randrange(5)
    if kind == 0:
        del owner[key]
    elif kind == 1 and isinstance(owner, dict):
        name = random.choice([*texts_in(table), "name", "module", "mode", "gaps", "stock", "purge", key + "s", key + " 2"])
        owner[name] = owner.pop(key)
    elif kind == 2 and isinstance(owner, dict):
        owner[random.choice([*texts_in(table), "mode", "flip", "extra"])] = random.choice([0, "f", True, owner[key]])
    else:
        change_value(random, table, owner, key)


def change_bytes(random, text):
    """The text with a byte less, more or another."""
    at = random.randrange(len(text))
    return text[:at] + random.choice(["", "=", "[", "\"", "#", "'", "é"]) + text[at + random.randrange(2):]
