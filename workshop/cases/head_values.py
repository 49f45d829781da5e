"""Values of heads as they are read, and as the store and the manifest hold them."""

from __future__ import annotations

from collections.abc import Iterator

from workshop.cases.case import SOME, Case, Holds, entry_is, has
from workshop.cases.line_cases import REFUSED, Rows
from workshop.cases.made import ONE_TEST, bundle, session, store
from workshop.cases.manifest_values import STATUSES
from workshop.cases.texts import BUILD_SCOPE, COUNTED_MANIFEST, HEAD, HEADER
from workshop.oracle.container import entries

# The head as a text, and the parts of a build scope with their defaults.
HEAD_TEXT, SCOPE = HEAD.decode(), BUILD_SCOPE.decode()
NONE_NAMED = '{"all":false,"names":[]}'
NO_FEATURES = '{"all-features":false,"features":[],"no-default-features":false}'
NO_PACKAGES = '{"exclude":[],"specs":[],"workspace":false}'
NO_TARGETS = (
    '{"all-targets":false,"benches":{"all":false,"names":[]},"bins":{"all":false,"names":[]},'
    '"examples":{"all":false,"names":[]},"lib":false,"tests":{"all":false,"names":[]}}'
)
DEFAULTS = '{"features":%s,"packages":%s,"targets":%s}' % (NO_FEATURES, NO_PACKAGES, NO_TARGETS)

# A part of the head, what stands in its place, with VALUE for what is tried, the entry of the store
# that is made of it, how that stands there, and texts with what they are written as.
OF_HEADS = [
    (
        "test names",
        '"run-id":',
        '"rerun-info":{"parent-run-id":"650e8400-e29b-41d4-a716-446655440000",'
        '"root-info":{"build-scope":{"build-kind":"cargo","scope":{}},'
        '"run-id":"650e8400-e29b-41d4-a716-446655440000"},"test-suites":[{"binary_id":"b",'
        '"outstanding":[],"passing":VALUE}]},"run-id":',
        "meta/rerun-info.json",
        '{"parent-run-id":"650e8400-e29b-41d4-a716-446655440000","root-info":{"build-scope":'
        + SCOPE
        + (
            ',"run-id":"650e8400-e29b-41d4-a716-446655440000"},"test-suites":[{"binary_id":"b",'
            '"outstanding":[],"passing":VALUE}]}'
        ),
        [
            ("[]", "[]"),
            ('["b","a","b","B"]', '["B","a","b"]'),
            ('["b","a","é","b","z"]', '["a","b","z","é"]'),
            ('["é","z",""]', '["","z","é"]'),
            ('["a",1]', REFUSED),
            ("{}", REFUSED),
        ],
    ),
    (
        "build scope of a rerun's root",
        '"run-id":',
        '"rerun-info":{"parent-run-id":"650e8400-e29b-41d4-a716-446655440000",'
        '"root-info":{"build-scope":VALUE,"run-id":"750e8400-e29b-41d4-a716-446655440000"},'
        '"test-suites":[]},"run-id":',
        "meta/rerun-info.json",
        '{"parent-run-id":"650e8400-e29b-41d4-a716-446655440000","root-info":{"build-scope":VALUE,'
        '"run-id":"750e8400-e29b-41d4-a716-446655440000"},"test-suites":[]}',
        [
            (
                '{"build-kind":"cargo","scope":{"packages":{"specs":["p"],"exclude":["q"]},'
                '"targets":{"lib":true,"bins":{"names":["b"]}},"features":{"features":["f"]}}}',
                '{"build-kind":"cargo","scope":{"features":{"all-features":false,"features":["f"],'
                '"no-default-features":false},"packages":{"exclude":["q"],"specs":["p"],'
                '"workspace":false},"targets":{"all-targets":false,"benches":{"all":false,'
                '"names":[]},"bins":{"all":false,"names":["b"]},"examples":{"all":false,'
                '"names":[]},"lib":true,"tests":{"all":false,"names":[]}}}}',
            ),
            ('{"scope":{}}', REFUSED),
            ('{"build-kind":"cargo"}', REFUSED),
            ("{}", REFUSED),
            ('{"build-kind":"bazel","scope":{}}', REFUSED),
        ],
    ),
    (
        "test list",
        '"test-list":{"suites":{}}',
        '"test-list":VALUE',
        "meta/test-list.json",
        "VALUE",
        [
            ('{"suites":{}}', '{"suites":{}}'),
            (
                '{"suites":{"b":["t2","t1","t2"],"a":[]},"x":0}',
                '{"suites":{"a":[],"b":["t2","t1","t2"]}}',
            ),
            ("{}", REFUSED),
            ('{"suites":null}', REFUSED),
        ],
    ),
    (
        "run mode",
        '{"run-mode":"test"}',
        '{"run-mode":VALUE}',
        "meta/record-opts.json",
        '{"run-mode":VALUE}',
        [('"benchmark"', '"benchmark"'), ('"Test"', REFUSED), ('{"test":null}', REFUSED)],
    ),
    (
        "record options",
        '{"run-mode":"test"}',
        "VALUE",
        "meta/record-opts.json",
        "VALUE",
        [
            ('{"run-mode":"test"}', '{"run-mode":"test"}'),
            ('{"run-mode":"test","x":[-0,1.5]}', '{"run-mode":"test"}'),
            ('{"run-mode":"test","run-mode":"benchmark"}', '{"run-mode":"benchmark"}'),
            ('{"run-mode":"test","x":1e400}', REFUSED),
            ('{"run-mode":"test","x":"\\ud800"}', REFUSED),
            ('{"run_mode":"test"}', REFUSED),
            ("{}", REFUSED),
        ],
    ),
    (
        "named targets",
        '"scope":{}}}',
        '"scope":{"targets":{"bins":VALUE}}}}',
        "meta/build-scope.json",
        SCOPE.replace('"bins":' + NONE_NAMED, '"bins":VALUE'),
        [
            ("{}", NONE_NAMED),
            ('{"names":["b","a","b"]}', '{"all":false,"names":["b","a","b"]}'),
            ('{"all":true,"x":0}', '{"all":true,"names":[]}'),
            ('{"names":null}', REFUSED),
            ('{"all":null}', REFUSED),
            ('{"all":0}', REFUSED),
        ],
    ),
    (
        "packages",
        '"scope":{}}}',
        '"scope":{"packages":VALUE}}}',
        "meta/build-scope.json",
        SCOPE.replace(NO_PACKAGES, "VALUE"),
        [
            ("{}", NO_PACKAGES),
            (
                '{"workspace":true,"exclude":["a"],"specs":["b"]}',
                '{"exclude":["a"],"specs":["b"],"workspace":true}',
            ),
            ('{"workspace":null}', REFUSED),
            ('{"workspace":1}', REFUSED),
            ('{"exclude":"a"}', REFUSED),
            ('{"specs":[null]}', REFUSED),
            ("[]", REFUSED),
        ],
    ),
    (
        "targets",
        '"scope":{}}}',
        '"scope":{"targets":VALUE}}}',
        "meta/build-scope.json",
        SCOPE.replace(NO_TARGETS, "VALUE"),
        [
            ("{}", NO_TARGETS),
            (
                '{"all-targets":true,"lib":true,"tests":{"all":true},"bins":{"names":["a"]}}',
                '{"all-targets":true,"benches":{"all":false,"names":[]},"bins":{"all":false,'
                '"names":["a"]},"examples":{"all":false,"names":[]},"lib":true,'
                '"tests":{"all":true,"names":[]}}',
            ),
            ('{"all_targets":true}', NO_TARGETS),
            ('{"benches":[]}', REFUSED),
            ('{"all-targets":null}', REFUSED),
            ('{"tests":{"names":[1]}}', REFUSED),
            ("null", REFUSED),
        ],
    ),
    (
        "features",
        '"scope":{}}}',
        '"scope":{"features":VALUE}}}',
        "meta/build-scope.json",
        SCOPE.replace(NO_FEATURES, "VALUE"),
        [
            ("{}", NO_FEATURES),
            (
                '{"features":["f"],"all-features":true,"no-default-features":true}',
                '{"all-features":true,"features":["f"],"no-default-features":true}',
            ),
            ('{"features":[0]}', REFUSED),
            ('{"all-features":null}', REFUSED),
            ('{"no-default-features":"false"}', REFUSED),
            ("[]", REFUSED),
        ],
    ),
    (
        "build scope",
        '"scope":{}}}',
        '"scope":VALUE}}',
        "meta/build-scope.json",
        '{"build-kind":"cargo","scope":VALUE}',
        [
            ("{}", DEFAULTS),
            (DEFAULTS, DEFAULTS),
            ('{"packages":{},"targets":{"x":1}}', DEFAULTS),
            ('{"packages":null}', REFUSED),
            ('{"targets":{"lib":1}}', REFUSED),
            ("[]", REFUSED),
        ],
    ),
]

# A part of the head, and what stands in its place in a text that is no head.
NO_HEADS = [
    ('"run-id"', '"run_id"'),
    ("550e8400-e29b", "550e8400-e29"),
    ('"0.9.111"', '"0.9"'),
    ('"started-at":', '"x":'),
    ("1000,", "1000.0,"),
    ('"status":{', '"cli-args":null,"status":{'),
    ('"status":{', '"env-vars":[],"status":{'),
    ('"status":{', '"duration":{"secs":1},"status":{'),
    ('"{}"', "{}"),
    ('"suites"', '"suite"'),
    ('"cargo"', '"other"'),
    (',"scope":{}', ""),
    ('"status":{', '"rerun-info":{},"status":{'),
    (
        '"status":{',
        '"rerun-info":{"parent-run-id":"650e8400-e29b-41d4-a716-446655440000",'
        '"root-info":{"run-id":"750e8400-e29b-41d4-a716-446655440000",'
        '"build-scope":{"build-kind":"reused","scope":{}}},"test-suites":[{"binary_id":"a",'
        '"passing":[],"outstanding":[]},{"binary_id":"a","passing":["t"],"outstanding":[]}]},'
        '"status":{',
    ),
    (
        '"status":{',
        '"rerun-info":{"parent-run-id":"650e8400-e29b-41d4-a716-446655440000",'
        '"root-info":{"run-id":"750e8400-e29b-41d4-a716-446655440000",'
        '"build-scope":{"build-kind":"reused","scope":{}}},"test-suites":[{"binary-id":"a",'
        '"passing":[],"outstanding":[]}]},"status":{',
    ),
    (
        '"status":{',
        '"rerun-info":{"parent-run-id":"650e8400-e29b-41d4-a716-446655440000",'
        '"root-info":{"run-id":"750e8400-e29b-41d4-a716-446655440000",'
        '"build-scope":{"build-kind":"reused","scope":{}}},"test-suites":{"a":{"passing":[],'
        '"outstanding":[]}}},"status":{',
    ),
    (
        '"status":{',
        '"rerun-info":{"parent-run-id":"650e8400-e29b-41d4-a716-446655440000",'
        '"root-info":{"run-id":"750e8400-e29b-41d4-a716-446655440000",'
        '"build-scope":{"build-kind":"reused","scope":{}}},"test-suites":[{"binary_id":"a",'
        '"passing":null,"outstanding":[]}]},"status":{',
    ),
]

# Members before the status of a head, and the manifest's part of them.
FIELDS = (
    '"duration":{"secs":11,"nanos":5},"cli-args":["b","a"],"env-vars":{"Z":"2","A":"1"},'
    '"parent-run-id":"650E8400E29B41D4A716446655440000","ignored":1e2,"status":'
)

# Members in the place of `"status":{` in a head, and the entry of the store that is made of them.
RERUN = (
    '"rerun-info":{"parent-run-id":"650e8400-e29b-41d4-a716-446655440000",'
    '"root-info":{"run-id":"750e8400-e29b-41d4-a716-446655440000",'
    '"build-scope":{"build-kind":"reused","scope":{}}},"test-suites":[{"binary_id":"b",'
    '"passing":[],"outstanding":["t"]},{"binary_id":"a","passing":["u","t","u"],'
    '"outstanding":[]}]},"status":{'
)
STORED_RERUN = (
    (
        '{"parent-run-id":"650e8400-e29b-41d4-a716-446655440000",'
        '"root-info":{"build-scope":{"build-kind":"reused","scope":'
    )
    + DEFAULTS
    + (
        '},"run-id":"750e8400-e29b-41d4-a716-446655440000"},"test-suites":[{"binary_id":"a",'
        '"outstanding":[],"passing":["t","u"]},{"binary_id":"b","outstanding":["t"],"passing":[]}]}'
    )
)


def store_has(entry: bytes, wanted: bytes) -> Holds:
    return Holds(
        f"a bundle with {entry!r} {wanted!r}",
        lambda data: entries(entries(data)[b"store.zip"])[entry] == wanted,
    )


def stored(
    name: str, part: str, place: str, entry: str, content: str, rows: Rows
) -> Iterator[Case]:
    """The cases of texts in a head, of which an entry of the store is made."""
    for text, wanted in rows:
        head = HEAD_TEXT.replace(part, place.replace("VALUE", text), 1)
        if wanted is REFUSED:
            yield Case(
                f"{name} {text}",
                ("record", "b"),
                session(head=head.encode()),
                5,
                err=b"ParseHead\n",
            )
        else:
            file = store_has(entry.encode(), content.replace("VALUE", wanted).encode())
            yield Case(
                f"{name} {text}", ("record", "b"), session(head=head.encode()), out=SOME, file=file
            )


def status_of_head(text: str, wanted: str | None) -> Case:
    head = HEAD_TEXT.replace('{"status":"incomplete"}', text)
    if wanted is REFUSED:
        return Case(
            f"status of a head {text}",
            ("record", "b"),
            session(head=head.encode()),
            5,
            err=b"ParseHead\n",
        )
    file = entry_is(b"manifest.json", has(b'"status":' + wanted.encode()))
    return Case(
        f"status of a head {text}",
        ("record", "b"),
        session(head=head.encode()),
        out=SOME,
        file=file,
    )


def of_options(options: str) -> bytes:
    """A bundle with these record options."""
    return bundle(b"", store(options.encode(), ONE_TEST), COUNTED_MANIFEST)


def nested(depth: int, opening: str = "[", closing: str = "]") -> str:
    """Record options with this many arrays, or objects, in one another."""
    return '{"run-mode":"test","x":' + opening * depth + "0" + closing * depth + "}"


WITH_FIELDS = has(
    b'"run":{"cli-args":["b","a"],"duration":{"nanos":5,"secs":11},"env-vars":{"A":"1","Z":"2"},'
    b'"last-written-at":{"nanos":0,"offset":0,"secs":1011},"nextest-version":"0.9.111",'
    b'"parent-run-id":"650e8400-e29b-41d4-a716-446655440000",'
    b'"run-id":"550e8400-e29b-41d4-a716-446655440000",',
    b'"started-at":{"nanos":0,"offset":0,"secs":1000},"status":{"status":"incomplete"}',
)
UNREADABLE_OPTIONS = b"DeserializeMetadata file_name=meta/record-opts.json\n"
NESTED_HEAD = HEAD_TEXT.replace('{"run-mode":"test"}', nested(125))
NESTED_OPTIONS = store_has(b"meta/record-opts.json", b'{"run-mode":"test"}')
DEEPER_HEAD = HEAD_TEXT.replace('{"run-mode":"test"}', nested(126))

CASES = [
    *(case for row in OF_HEADS for case in stored(*row)),
    *(status_of_head(text, wanted) for text, wanted in STATUSES),
    *(
        Case(
            f"{part} as {other}",
            ("record", "b"),
            session(head=HEAD_TEXT.replace(part, other, 1).encode()),
            5,
            err=b"ParseHead\n",
        )
        for part, other in NO_HEADS
    ),
    Case(
        "members of a run",
        ("record", "b"),
        session(head=HEAD_TEXT.replace('"status":', FIELDS, 1).encode()),
        out=SOME,
        file=entry_is(b"manifest.json", WITH_FIELDS),
    ),
    Case(
        "rerun",
        ("record", "b"),
        session(head=HEAD_TEXT.replace('"status":{', RERUN, 1).encode()),
        out=SOME,
        file=store_has(b"meta/rerun-info.json", STORED_RERUN.encode()),
    ),
    Case(
        "125 arrays in a head",
        ("record", "b"),
        session(head=NESTED_HEAD.encode()),
        out=SOME,
        file=NESTED_OPTIONS,
    ),
    Case(
        "126 arrays in a head",
        ("record", "b"),
        session(head=DEEPER_HEAD.encode()),
        5,
        err=b"ParseHead\n",
    ),
    Case("126 arrays", ("replay",), of_options(nested(126)), out=HEADER),
    Case("127 arrays", ("replay",), of_options(nested(127)), 12, err=UNREADABLE_OPTIONS),
    Case("126 objects", ("replay",), of_options(nested(126, '{"a":', "}")), out=HEADER),
    Case(
        "127 objects",
        ("replay",),
        of_options(nested(127, '{"a":', "}")),
        12,
        err=UNREADABLE_OPTIONS,
    ),
]
