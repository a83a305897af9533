"""Files that attack an importer, with the status and a line that they owe. `test` imports each within three seconds and 200 MiB."""

from __future__ import annotations

from dataclasses import dataclass

MIB = 1024 * 1024
# The status of a deployment without something that the file has.
WITH_LOSSES = 5
# The most writers, and as many topics, that a deployment has, and the most lines that are printed of what isn't in it.
MOST_WRITERS = 256
MOST_LINES = 1000
NO_ENTITIES = "it has a document type, and entities aren't read"
NOTHING = "it has no participant, no topic, and no profile of a writer or reader"
TOO_MUCH = "its profiles inherit or match too much to be followed"
TOO_LONG = "a tag, comment or text has more than 1048576 bytes"


@dataclass(frozen=True)
class Attack:
    name: str
    data: bytes
    status: int
    line: str


def document(types: bytes, inside: bytes = b"") -> bytes:
    return b'<?xml version="1.0"?>\n<!DOCTYPE dds [' + types + b"]>\n<dds>" + inside + b"</dds>"


def library(inside: bytes) -> bytes:
    return b'<dds><qos_library name="l">' + inside + b"</qos_library></dds>"


def entities() -> list[Attack]:
    """Document types of every kind, in front of which comments and instructions may stand."""
    laughs = b'<!ENTITY a0 "ha">' + b"".join(b'<!ENTITY a%d "&a%d;&a%d;">' % (i, i - 1, i - 1) for i in range(1, 40))
    declared = {
        "billion laughs": document(laughs, b"&a39;"),
        "quadratic blowup": document(b'<!ENTITY a "' + b"x" * 100_000 + b'">', b"&a;" * 100_000),
        "quadratic blowup in 10 MiB": document(b'<!ENTITY a "' + b"x" * 100_000 + b'">', b"<!--%s-->" % (b"x" * MIB)[:-99] * 9 + b"<b/>" + b"&a;" * 300_000),
        "an external entity": document(b'<!ENTITY a SYSTEM "file:///etc/passwd">', b"&a;"),
        "a parameter entity": document(b'<!ENTITY % a SYSTEM "http://127.0.0.1:9/x"> %a;'),
        "an external document type": b'<?xml version="1.0"?>\n<!DOCTYPE dds SYSTEM "http://127.0.0.1:9/x.dtd"><dds/>',
        "an empty document type": b'<?xml version="1.0"?>\n<!DOCTYPE dds><dds/>',
    }
    found = [Attack(name, data, 2, f"line 2: {NO_ENTITIES}") for name, data in declared.items()]
    hidden = b"<!-- <!DOCTYPE x -->\n<?pi <dds> ?>\n" + document(laughs, b"&a39;").split(b"\n", 1)[1]
    return found + [
        Attack("laughs after a comment and an instruction", hidden, 2, f"line 3: {NO_ENTITIES}"),
        Attack("laughs in UTF-16", declared["billion laughs"].decode().encode("utf-16"), 2, f"line 2: {NO_ENTITIES}"),
        Attack("laughs in UTF-16 without a mark", declared["billion laughs"].decode().encode("utf-16-be"), 2, f"line 2: {NO_ENTITIES}"),
        Attack("an entity that isn't declared", b"<dds>&a;</dds>", 2, "line 1: it isn't XML: undefined entity"),
        Attack("a document type in a comment", b"<!-- <!DOCTYPE dds> --><dds/>", 2, NOTHING),
    ]


def encodings() -> list[Attack]:
    named = '<?xml version="1.0" encoding="%s"?><profiles><data_writer profile_name="\u00e9"/></profiles>'
    plain = named.replace(' encoding="%s"', "")
    became = "line 1: /profiles/data_writer[\\xe9]: the name '\\xe9_w' became __w"
    return [
        Attack("UTF-8", plain.encode(), 0, became),
        Attack("UTF-8 with a mark", b"\xef\xbb\xbf" + plain.encode(), 0, became),
        Attack("UTF-16", plain.encode("utf-16"), 0, became),
        Attack("UTF-16, big end first", b"\xfe\xff" + plain.encode("utf-16-be"), 0, became),
        Attack("UTF-16 without a mark", plain.encode("utf-16-le"), 0, became),
        Attack("ISO-8859-1", (named % "ISO-8859-1").encode("latin-1"), 0, became),
        Attack("ISO-8859-1 that isn't declared", plain.encode("latin-1"), 2, "line 1: it isn't XML: not well-formed (invalid token)"),
        Attack("UTF-16 that is cut", plain.encode("utf-16")[:-1], 2, "it begins as UTF-16, but it isn't that"),
        Attack("UTF-16 that is declared alone", (named % "UTF-16").encode(), 2, "its encoding utf-16 isn't UTF-8, UTF-16, ISO-8859-1 or US-ASCII"),
        Attack("EBCDIC", (named % "cp037").encode(), 2, "its encoding cp037 isn't UTF-8, UTF-16, ISO-8859-1 or US-ASCII"),
        Attack("UTF-7", (named % "utf-7").encode(), 2, "its encoding utf-7 isn't UTF-8, UTF-16, ISO-8859-1 or US-ASCII"),
        Attack("a zero byte", b"<dds>\0</dds>", 2, "line 1: it isn't XML: not well-formed (invalid token)"),
        Attack("zero bytes alone", bytes(1000), 2, "line 1: it isn't XML: not well-formed (invalid token)"),
        Attack("a zero byte by number", b"<dds>&#0;</dds>", 2, "line 1: it isn't XML: reference to invalid character number"),
        Attack("nothing", b"", 2, "line 1: it isn't XML: no element found"),
        Attack("half of a file", b"<dds>\n<types>", 2, "line 2: it isn't XML: no element found"),
        Attack("two documents", b"<dds/>\n<dds/>", 2, "line 2: it isn't XML: junk after document element"),
        Attack("another document", b"<CycloneDDS/>", 2, "line 1: the outermost element is CycloneDDS, which is neither dds nor profiles"),
    ]


def large() -> list[Attack]:
    """Files that are long, deep or wide."""
    text = b"x" * (MIB - 100)
    return [
        Attack("64 levels", b"<dds>" + b"<a>" * 63 + b"</a>" * 63 + b"</dds>", 2, NOTHING),
        Attack("65 levels", b"<dds>" + b"<a>" * 64 + b"</a>" * 64 + b"</dds>", 2, "line 1: elements are nested more than 64 deep"),
        Attack("10 MiB of levels", b"<a>" * (10 * MIB // 3), 2, "it has more than 131072 tags"),
        Attack("10 MiB of elements", b"<dds>" + b"<a/>" * (10 * MIB // 4) + b"</dds>", 2, "it has more than 131072 tags"),
        Attack("65,536 elements", b"<dds>" + b"<a/>" * 65_535 + b"</dds>", 2, NOTHING),
        Attack("65,537 elements", b"<dds>" + b"<a/>" * 65_536 + b"</dds>", 2, "line 1: it has more than 65536 elements"),
        Attack("10 MiB of text", b"<dds>" + b"x" * (10 * MIB) + b"</dds>", 2, f"line 1: {TOO_LONG}"),
        Attack("10 MiB of comments", b"<dds>" + (b"<!--" + text + b"-->") * 10 + b"</dds>", 2, NOTHING),
        Attack("10 MiB of sections", b"<dds>" + (b"<![CDATA[" + text + b"]]>") * 10 + b"</dds>", 2, NOTHING),
        Attack("10 MiB of line breaks", b"<dds>" + (b"<a/>" + b"\n" * (MIB - 100)) * 10 + b"</dds>", 2, NOTHING),
        Attack("10 MiB of names", b"<dds>" + (b'<a name="' + text + b'"/>') * 10 + b"</dds>", 2, NOTHING),
        Attack("10 MiB of attributes", b"<dds><a " + b"".join(b'a%06d="" ' % i for i in range(MIB)) + b"/></dds>", 2, f"line 1: {TOO_LONG}"),
        Attack("65 attributes", b"<dds " + b" ".join(b'a%d=""' % i for i in range(65)) + b"/>", 2, "line 1: an element has more than 64 attributes"),
        Attack("16 MiB", b"<dds/>" + b" " * (16 * MIB - 6), 2, f"line 1: {TOO_LONG}"),
        Attack("a byte more than 16 MiB", b"<dds/>" + b" " * (16 * MIB - 5), 2, "it has more than 16777216 bytes"),
    ]


def work() -> list[Attack]:
    """Files whose profiles ask for much work on little text."""
    chain = b"".join(b'<qos_profile name="p%d" base_name="p%d"><datawriter_qos/></qos_profile>' % (i, i - 1) for i in range(30_000))
    twice = b"<base_name><element>p%d</element><element>p%d</element></base_name>"
    diamond = b"".join(b'<qos_profile name="p%d">' % i + twice % (i - 1, i - 1) + b"<datawriter_qos/></qos_profile>" for i in range(60))
    stars = b"".join(b'<datawriter_qos topic_filter="%d%s"/>' % (i, b"*a" * 120) for i in range(20_000))
    policies = b'<qos_profile name="all"><datawriter_qos>' + b"<durability><kind>VOLATILE</kind></durability>" * 30_000
    policies += b"</datawriter_qos></qos_profile>" + b"".join(b'<qos_profile name="p%d" base_name="all"/>' % i for i in range(200))
    return [
        Attack("30,000 profiles, each of which inherits the last one", library(chain), 2, TOO_MUCH),
        Attack("200 profiles that inherit 30,000 policies", library(policies), 2, TOO_MUCH),
        Attack("profiles that inherit one twice", library(diamond), 2, TOO_MUCH),
        Attack("20,000 topic filters with 120 stars", library(b'<qos_profile name="p">' + stars + b"</qos_profile>"), 2, TOO_MUCH),
    ]


def floods() -> list[Attack]:
    """Files with very much of one thing, of which a deployment is made all the same."""
    blanks = b'<dds><domain_participant_library name="L"><domain_participant name="p" domain_id="0"><topic name="t" register_type_ref="T"/>'
    blanks += b'<data_reader name="r" topic_ref="t">\n<content_filter><expression>key' + b" " * 500_000
    blanks += b"&lt;</expression></content_filter></data_reader></domain_participant></domain_participant_library></dds>"
    count = 60_000
    named = b"<profiles>" + b"".join(b'<data_writer profile_name="%d"/>' % i for i in range(count)) + b"</profiles>"
    # each that is past the limit is left out
    of_named = count - MOST_WRITERS
    crowd = b"".join(b'\n<domain_participant name="p%d" domain_id="0"/>' % i for i in range(70))
    crowd = b'<dds><domain_participant_library name="L">' + crowd + b"</domain_participant_library></dds>"
    same = b"<profiles>" + b'<data_writer profile_name="w"/>' * count + b"</profiles>"
    lifespans = b'<profiles><data_writer profile_name="w"><qos>' + b"<lifespan>" * 55 + b"<sec/>" * count + b"</lifespan>" * 55
    lifespans += b"</qos></data_writer></profiles>"
    # of all but the first is told that they stand above too, and what their names became or that they are left out
    of_same = 2 * (count - 1)
    return [
        Attack(
            "a content filter of 500,000 blanks", blanks, WITH_LOSSES,
            "line 2: /dds/domain_participant_library[L]/domain_participant[p]/data_reader[r]/content_filter: "
            "it isn't one filter by keys of the topic alone, and isn't imported",
        ),
        Attack(
            "70 participants", crowd, WITH_LOSSES,
            "line 71: /dds/domain_participant_library[L]/domain_participant[p69]: a deployment has at most 64 participants, "
            "and this one is left out",
        ),
        Attack(
            "60,000 elements in 55 lifespans that say nothing", lifespans, 0,
            "line 1: /profiles/data_writer[w]/qos/lifespan: the element isn't imported",
        ),
        Attack("60,000 profiles", named, WITH_LOSSES, f"{of_named - MOST_LINES} more notes are left out"),
        Attack("a profile 60,000 times", same, WITH_LOSSES, f"{of_same - MOST_LINES} more notes are left out"),
    ]


def attacks() -> list[Attack]:
    return entities() + encodings() + large() + work() + floods()
