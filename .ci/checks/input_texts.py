"""Inputs of targets by chance, for the mixed runs: texts, paths and templates, most of which find something in an event, and some of which
are faulty. `INPUTS` are members that are valid, the others are faults, each alone."""
from pattern_texts import a_value, spell, spell_text
from patterns import spelled

OWN_NAMES = [f"aws.events.{it}" for it in ("rule-arn", "rule-name", "event.ingestion-time", "event", "event.json")]
FOUND = ["$", "$.id", "$.detail", "$.detail-type", "$.source", "$.time", "$.resources", "$.detail.total", "$.detail.state", "$.detail.place", "$.detail.place.city"]
PATHS = [*FOUND, "$.resources[0]", "$.resources[2]", "$.detail.state[1]", "$.detail.place.at", "$.detail.place.at[0]", "$.detail.note", "$.detail.note[0]"]
PATHS += ["$.detail.a", "$.detail.n[0]", "$.no", "$.detail.state.no", "$.detail[0]", "$[0]", "$.a[2147483647]", "$.-._.9"]
BAD_PATHS = ["a", "$.", "$$", "$a", " $", "$ ", "$.a.", "$.a b", "$.é", "$.*", "$..a", "$['a']", '$["a"]', "$.a[*]", "$.a[]", "$.a[1", "$.a]", "$.a[-1]"]
BAD_PATHS += ["$.a[01]", "$.a[1.0]", "$.a[2147483648]", "$.a[99999999999999999999]", "$.a[1:2]", "$.a\n", "$.a\x00", "@.a", "$.a[" + "9" * 5_000 + "]"]
KEYS = ["n", "id", "t", "x", "no", "aws", "-", "_9", "A-b_C", "k" * 256]
BAD_KEYS = ["", "AWS", "AWSx", "a.b", "a b", "é", "<n>", "k" * 257]
BAD_INPUTS = ["", " ", "{", "{}x", "[1,]", "{'a':1}", "01", "nul", "order", '"\\ud800"', "\ufeff{}", "<aws.events.event>", "a\n", '"\n"']
BAD_INPUTS += ["[" * 101 + "]" * 101, '"' + "é" * 8_191 + '"', " " * 8_192 + "1"]
BAD_TEMPLATES = ["", " ", "<n", "n>", "n", "<n>>", "<<n>>", "<n><n>", "[<n> <n>]", "{<n>:1}", '{"a":<n>,}', "[<n>,]", "<nope>", "< n>", "<n >", "<N>", "<>"]
BAD_TEMPLATES += ['"<n>', '{"a" <n>}', "order <n>", "<n>\n<n>", '"<n>\n"', "<\\u006e>", "'<n>'", "<aws.events>", "<aws.events.event.jso>", "<AWS.events.event>"]
BAD_TEMPLATES += ["[" * 101 + "]" * 101, "[" * 101 + "<n>" + "]" * 101, '"' + "é" * 8_191 + '"', "<n>" + " " * 8_190, '"\\ud800<n>"']


def transformer(template, paths=None):
    return {"InputTemplate": template} if paths is None else {"InputPathsMap": paths, "InputTemplate": template}


N = {"n": "$.detail.n"}
BAD_TRANSFORMERS = [transformer(it, N) for it in BAD_TEMPLATES] + [transformer(it) for it in ("<n>", "")]
BAD_TRANSFORMERS += [transformer("1", {**N, key: "$"}) for key in BAD_KEYS] + [transformer("1", {**N, "a": path}) for path in ["", *BAD_PATHS]]
BAD_TRANSFORMERS += [transformer("1", {f"k{it}": "$" for it in range(101)})]

# What an event of these inputs has as its Detail.
DETAIL = '{"n":1,"id":"a\\"b","t":"<n>","x":{"n":1.50,"<n>":[true,null]},"items":[{"sku":7},["\\u0000\\n",{}]],"deep":%s}' % ("[" * 98 + "]" * 98)
SEEN = {"n": "$.detail.n", "id": "$.detail.id", "t": "$.detail.t", "x": "$.detail.x", "i": "$.detail.items", "m": "$.detail.no", "deep": "$.detail.deep"}
SEEN["sku"] = "$.detail.items[0].sku"
TEMPLATES = ["<n>", '"<n>"', "<x>", '"<x>"', '{"<n>":"<<n>>"}', '"\\u003cn>"', '{"a":0,"b":2,"a":<n>}', "[<aws.events.event>]", '"<t>"', '"<k>"', "<m>", '"<m>"']
TEMPLATES += ['"<"', '">"', '"<n"', '"<n<n>"', '"<n >< n><N><>"', '"<m><<m>n>"', '"\\\\<id>\\"<i>"', "[<id>,<t>,<i>,<sku>,<m>]", ' {"\\u0061" :\n<t>,"a":<m>} ']
TEMPLATES += [f"<{it}>" for it in OWN_NAMES] + [f'"<{it}>, <{it}>"' for it in OWN_NAMES] + ["[" * 100 + "<deep>" + "]" * 100, '["<deep>",<deep>]']
TEMPLATES += ['"' + "é" * 8_190 + '"', "<n>" + " " * 8_189, '"' + "<n>" * 2_730 + '"', "[" + "<n>," * 2_047 + "1]", '"' + "<" * 8_190 + '"']
INPUTS = [{"InputTransformer": transformer(it, SEEN)} for it in TEMPLATES]
INPUTS += [{"InputTransformer": transformer('"<k0><k99>"', {f"k{it}": f"$.detail.items[{it}]" for it in range(100)})}]
INPUTS += [{"InputTransformer": transformer("<" + "k" * 256 + ">", {"k" * 256: "$." + "a" * 300})}, {"InputTransformer": transformer('"<n>"', {})}]
INPUTS += [{"InputPath": it} for it in [*SEEN.values(), *PATHS, "$.detail.items[1][0]", "$.detail.x[0]", "$.detail.items.n", "$." + "a" * 254]]
INPUTS += [{"Input": it} for it in (' {"a" : 1.50}', '{"a":1,"b":2,"\\u0061":[]}', '"<n>\\/"', "null", "1E+2", "[" * 100 + "]" * 100, '"' + "é" * 8_190 + '"', "1" + " " * 8_191)]
ONE = [{"Input": "1"}, {"InputPath": "$"}, {"InputTransformer": transformer("1")}]
TWO_INPUTS = [{**a, **b} for a in ONE for b in ONE if a is not b] + [{**ONE[0], **ONE[1], **ONE[2]}]
# Texts of 1,048,576 bytes and of one more, of an event with this Detail: eight times 131,071 bytes, the marks and some more.
MOST = ('{"n":"%s"}' % ("x" * 131_071), [{"InputTransformer": transformer('"' + "<n>" * 8 + "y" * it + '"', N)} for it in (6, 7)])


def an_input(chance):
    """Members that say what a target gets; a few are faulty, or are two."""
    kind = chance.random()
    if kind < 0.04:
        return chance.choice(TWO_INPUTS)
    if kind < 0.2:
        return {"Input": spell(chance, a_value(chance, 3), 0.1)}
    if kind < 0.45:
        return {"InputPath": a_path(chance)}
    paths = {chance.choice(KEYS[:9]): a_path(chance) for _ in range(chance.choice([0, 1, 2, 3, 5]))}
    given = chance.choice([paths, paths, paths or None])
    return {"InputTransformer": transformer(a_template(chance, list(paths)), given) | chance.choice([{}, {}, {"Pad": 1}])}


def a_path(chance):
    if chance.random() < 0.02:
        return chance.choice(BAD_PATHS)
    return chance.choice(FOUND if chance.random() < 0.6 else PATHS)


def a_template(chance, keys):
    """The text of a template with these keys, and a few with a fault."""
    text = a_part(chance, keys, chance.choice([0, 1, 1, 2, 3]))
    kind = chance.random()
    if kind < 0.05:
        at = chance.randint(0, len(text))
        letters = chance.choice(["", "<", ">", "<n>", "<nope>", ",", '"', "}", "]", "\\", "\n", "x", "\ufeff"])
        text = text[:at] + letters + text[at + chance.randint(0, 2) :]
    return text


def a_part(chance, keys, levels):
    kind = chance.random()
    if levels == 0 or kind < 0.2:
        return chance.choice([a_name, a_name, a_text, a_text, a_plain])(chance, keys)
    parts = [a_part(chance, keys, levels - 1) for _ in range(chance.randint(0, 3))]
    if kind < 0.5:
        return chance.choice(["[%s]", " [ %s ]\n"]) % ",".join(parts)
    names = ["a", "b", "<n>", "order <id>", ""]
    return "{%s}" % ", ".join(f"{spell_text(chance, chance.choice(names))}:{it}" for it in parts)


def a_name(chance, keys):
    # What has the whole event comes rarely, since queues keep it.
    return "<" + chance.choice([*(keys or OWN_NAMES[:3]) * 4, *OWN_NAMES]) + ">"


def a_text(chance, keys):
    pieces = ["order ", "<", ">", "<nope>", "< n>", '"', "\\", "é", "\n", "<<", "by "] + [a_name(chance, keys)] * 6
    return spell_text(chance, "".join(chance.choice(pieces) for _ in range(chance.randint(0, 5))))


def a_plain(chance, _keys):
    return spelled(chance.choice([None, True, 0, 12, "x"]))
