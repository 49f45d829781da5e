"""Values of manifests as they are read, and as `info` prints them."""

from __future__ import annotations

from collections.abc import Iterator

from workshop.cases.case import Case
from workshop.cases.line_cases import REFUSED, RUN_IDS, TEXTS, Rows
from workshop.cases.texts import COUNTED_MANIFEST, OLDER_STORE
from workshop.oracle.container import container

MANIFEST_TEXT = COUNTED_MANIFEST.decode()

# A part of the manifest, what stands in its place, with VALUE for what is tried, and texts with
# what they are written as.
OF_MANIFESTS = [
    (
        "u32",
        '"status":{"status":"incomplete"}',
        (
            '"status":{"exit-code":0,"failed-count":0,"status":"stress-completed",'
            '"success-count":VALUE}'
        ),
        [
            ("0", "0"),
            (" \t7\r\n", "7"),
            ("4294967295", "4294967295"),
            ("4294967296", REFUSED),
            ("-1", REFUSED),
            ("-0", REFUSED),
            ("1.0", REFUSED),
            ("1e2", REFUSED),
            ("01", REFUSED),
            ('"1"', REFUSED),
            ("null", REFUSED),
            ("true", REFUSED),
            ("[1]", REFUSED),
            ("{}", REFUSED),
            ("7 8", REFUSED),
            ("\xa07", REFUSED),
            ("", REFUSED),
        ],
    ),
    (
        "u64",
        '"compressed":4',
        '"compressed":VALUE',
        [
            ("9223372036854775808", "9223372036854775808"),
            ("18446744073709551615", "18446744073709551615"),
            ("18446744073709551616", REFUSED),
        ],
    ),
    (
        "i64",
        '"started-at":{"nanos":0,"offset":0,"secs":1000}',
        '"started-at":{"nanos":0,"offset":0,"secs":VALUE}',
        [
            ("0", "0"),
            ("-1", "-1"),
            ("-9223372036854775808", "-9223372036854775808"),
            ("-9223372036854775809", REFUSED),
            ("9223372036854775807", "9223372036854775807"),
            ("9223372036854775808", REFUSED),
        ],
    ),
    (
        "i32",
        '"started-at":{"nanos":0,"offset":0,"secs":1000}',
        '"started-at":{"nanos":0,"offset":VALUE,"secs":1000}',
        [
            ("-2147483648", "-2147483648"),
            ("-2147483649", REFUSED),
            ("2147483647", "2147483647"),
            ("2147483648", REFUSED),
        ],
    ),
    (
        "u32 above 0",
        '"status":{"status":"incomplete"}',
        (
            '"status":{"exit-code":0,"failed-count":0,"initial-iteration-count":VALUE,'
            '"status":"stress-completed","success-count":0}'
        ),
        [
            ("1", "1"),
            ("4294967295", "4294967295"),
            ("0", REFUSED),
            ("4294967296", REFUSED),
            ("-1", REFUSED),
            ("1.0", REFUSED),
        ],
    ),
    ("text", '"cli-args":[]', '"cli-args":[VALUE]', TEXTS),
    (
        "escaped text",
        '"cli-args":[]',
        '"cli-args":[VALUE]',
        [
            ('"a b/c"', '"a b/c"'),
            ('"\\"\\\\\\/"', '"\\"\\\\/"'),
            ('"\\n\\r\\t\\b\\f"', '"\\n\\r\\t\\b\\f"'),
            ('"\\u0041\\u00e9"', '"Aé"'),
            ('"\\u0000\\u001b\\u001f"', '"\\u0000\\u001b\\u001f"'),
            ('"\\u007f\\ud83e\\udd80"', '"\x7f\U0001f980"'),
            ('"\\udd80\\ud83e"', REFUSED),
            ('"\\x41"', REFUSED),
            ('"\\u41"', REFUSED),
            ('"\n"', REFUSED),
            ('"\0"', REFUSED),
            ('"open', REFUSED),
        ],
    ),
    (
        "list",
        '"cli-args":[]',
        '"cli-args":VALUE',
        [('["b", "a", "b"]', '["b","a","b"]'), ('["b",null]', REFUSED), ("{}", REFUSED)],
    ),
    ("run id", '"550e8400-e29b-41d4-a716-446655440000"', "VALUE", RUN_IDS),
    (
        "version",
        '"0.9.111"',
        "VALUE",
        [
            ('"1.0.0-rc.1+build.01"', '"1.0.0-rc.1+build.01"'),
            ('"01.0.0"', REFUSED),
            ('"1.0"', REFUSED),
            ('"18446744073709551616.0.0"', REFUSED),
            ("1", REFUSED),
            ('""', REFUSED),
            ('"1.0.0 "', REFUSED),
        ],
    ),
    (
        "instant",
        '"started-at":{"nanos":0,"offset":0,"secs":1000}',
        '"started-at":VALUE',
        [
            (
                '{"secs":-1,"nanos":999999999,"offset":-60}',
                '{"nanos":999999999,"offset":-60,"secs":-1}',
            ),
            ('{"secs":0,"nanos":1000000000,"offset":0}', REFUSED),
            ('{"secs":0,"nanos":0}', REFUSED),
            ('{"secs":0.5,"nanos":0,"offset":0}', REFUSED),
            ('{"secs":null,"nanos":0,"offset":0}', REFUSED),
        ],
    ),
    (
        "duration",
        '"env-vars":{}',
        '"duration":VALUE,"env-vars":{}',
        [
            ('{"nanos":1,"secs":2,"secs":3}', '{"nanos":1,"secs":3}'),
            ('{"nanos":1,"secs":null,"secs":3}', '{"nanos":1,"secs":3}'),
            ('{"nan\\u006fs":1,"secs":2,"secs-":3,"sec":4}', '{"nanos":1,"secs":2}'),
            ('{"nanos":1,"secs":2,"secs":null}', REFUSED),
            ('{"nanos":1,"":2}', REFUSED),
            ('{"nanos":1,"x":{"secs":2}}', REFUSED),
            ("{}", REFUSED),
            ('{"nanos":1000000000,"secs":2}', REFUSED),
            ('{"nanos":1,"secs":-1}', REFUSED),
            ("[2,1]", REFUSED),
        ],
    ),
    (
        "map",
        '"env-vars":{}',
        '"env-vars":VALUE',
        [
            ('{"b":"1","a":"2","b":"3"}', '{"a":"2","b":"3"}'),
            ('{"b":"1","":"2","a":"3","b":"4"}', '{"":"2","a":"3","b":"4"}'),
            (
                '{"a_b":"1","ab":"2","a":"3","a-b":"4","a1":"5","B":"6","\\n":""}',
                '{"\\n":"","B":"6","a":"3","a-b":"4","a1":"5","a_b":"1","ab":"2"}',
            ),
            (
                '{"\uff5e":"1","\\ud800\\udc00":"2","z":"3"}',
                '{"z":"3","\uff5e":"1","\U00010000":"2"}',
            ),
            ('{"a":null,"b":"1","a":"3"}', '{"a":"3","b":"1"}'),
            ('{"a":"3","b":"1","a":null}', REFUSED),
            ('{"a":null}', REFUSED),
            ("[]", REFUSED),
        ],
    ),
    (
        "status",
        '"status":{"status":"incomplete"}',
        '"status":VALUE',
        [
            (
                (
                    '{"status":"completed","initial-run-count":3,"passed":2,"failed":1,'
                    '"exit-code":-100}'
                ),
                (
                    '{"exit-code":-100,"failed":1,"initial-run-count":3,"passed":2,'
                    '"status":"completed"}'
                ),
            ),
            (
                '{"status":"cancelled","initial-run-count":3,"passed":0,"failed":0,"exit-code":4}',
                '{"exit-code":4,"failed":0,"initial-run-count":3,"passed":0,"status":"cancelled"}',
            ),
            (
                (
                    '{"status":"stress-completed","initial-iteration-count":5,"success-count":4,'
                    '"failed-count":1,"exit-code":0}'
                ),
                (
                    '{"exit-code":0,"failed-count":1,"initial-iteration-count":5,'
                    '"status":"stress-completed","success-count":4}'
                ),
            ),
            (
                (
                    '{"status":"stress-cancelled","initial-iteration-count":null,'
                    '"success-count":0,"failed-count":0,"exit-code":0}'
                ),
                '{"exit-code":0,"failed-count":0,"status":"stress-cancelled","success-count":0}',
            ),
            ('{"status":"Completed","passed":true}', '{"status":"unknown"}'),
            ('{"status":"unknown"}', '{"status":"unknown"}'),
            ('{"status":null}', REFUSED),
            ('"incomplete"', REFUSED),
            ('{"status":"completed"}', REFUSED),
        ],
    ),
]

# A manifest of an older store without the members that have defaults.
SHORT_MANIFEST = (
    '{"format-version":{"major":1,"minor":0},"run":{"last-written-at":{"nanos":0,"offset":0,'
    '"secs":1011},"nextest-version":"0.9.111","run-id":"550e8400-e29b-41d4-a716-446655440000",'
    '"sizes":{"log":{"compressed":1,"uncompressed":2},"store":{"compressed":4,"entries":6,'
    '"uncompressed":5}},"started-at":{"nanos":0,"offset":0,"secs":1000},'
    '"status":{"status":"incomplete"},"store-format-version":2}}'
)


def manifest_of(run: bytes) -> bytes:
    """What is printed of a bundle with this manifest alone."""
    return container([(b"manifest.json", run)])


def printed(name: str, part: str, place: str, rows: Rows) -> Iterator[Case]:
    """The cases of texts in a manifest, which `info` prints anew."""
    for text, wanted in rows:
        manifest = MANIFEST_TEXT.replace(part, place.replace("VALUE", text), 1).encode()
        if wanted is REFUSED:
            yield Case(
                f"{name} {text}", ("info",), manifest_of(manifest), 12, err=b"ParseManifest\n"
            )
        else:
            out = MANIFEST_TEXT.replace(part, place.replace("VALUE", wanted), 1).encode() + b"\n"
            yield Case(f"{name} {text}", ("info",), manifest_of(manifest), out=out)


STATUSES = OF_MANIFESTS[-1][-1]
READ_SHORT_MANIFEST = (
    b'{"format-version":{"major":1,"minor":0},"run":{"cli-args":[],"env-vars":{},'
    b'"last-written-at":{"nanos":0,"offset":0,"secs":1011},"nextest-version":"0.9.111",'
    b'"run-id":"550e8400-e29b-41d4-a716-446655440000","sizes":{"log":{"compressed":1,"entries":0,'
    b'"uncompressed":2},"store":{"compressed":4,"entries":6,"uncompressed":5}},'
    b'"started-at":{"nanos":0,"offset":0,"secs":1000},"status":{"status":"incomplete"},'
    b'"store-format-minor-version":0,"store-format-version":3}}\n'
)
NO_TEXT = COUNTED_MANIFEST.replace(b'"cli-args":[]', b'"cli-args":["\xff"]')

CASES = [
    *(case for row in OF_MANIFESTS for case in printed(*row)),
    Case("manifest", ("info",), manifest_of(COUNTED_MANIFEST), out=COUNTED_MANIFEST + b"\n"),
    Case("text that isn't UTF-8", ("info",), manifest_of(NO_TEXT), 12, err=b"ParseManifest\n"),
    Case("older store", ("info",), manifest_of(SHORT_MANIFEST.encode()), 12, err=OLDER_STORE),
    Case(
        "defaults",
        ("info",),
        manifest_of(
            SHORT_MANIFEST.replace('"store-format-version":2', '"store-format-version":3').encode()
        ),
        out=READ_SHORT_MANIFEST,
    ),
]
