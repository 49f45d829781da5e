"""What each fault line of the program means, and what to do about it.

`SENTENCES` has each line that the program can print on standard error, as a form and a sentence.
In a form `{name}` stands for a value, which the sentence may show; besides it may have the phrases
of `PHRASES`. workshop/check_pages.py holds the table against the list of lines in docs/CLI.md.
"""

from __future__ import annotations

from collections.abc import Mapping

PHRASES = {
    "counted": "the words after `rezovamy` are counted from 0",
    "contradicts": "the events contradict each other, so ask the tool that wrote them",
    "damaged": ("the bundle is damaged, so take another copy of it, or record its session again"),
    "newer": "a newer rezovamy wrote this bundle, so read it with that one",
}

FORMAT_VERSION = "UnsupportedFormatVersion found={found} supported={supported} incompatibility="
STORE_VERSION = "UnsupportedStoreFormatVersion found={found} supported={supported} incompatibility="
MAJORS = " recording_major={recording_major} supported_major={supported_major}"
MINORS = " recording_minor={recording_minor} supported_minor={supported_minor}"

SENTENCES: Mapping[str, str] = {
    # The words.
    "NoCommand": "rezovamy was given no command: rezovamy --help lists them",
    "UnknownCommand at={at}": (
        "word {at} isn't a command ({counted}): rezovamy --help lists them; --help and --version "
        "stand alone"
    ),
    "MissingPositional at={at}": (
        "an argument is missing: rezovamy record BUNDLE < SESSION, or rezovamy sample N BUNDLE"
    ),
    "BadNumber at={at}": (
        "the number of tests of `sample` must be a whole number from 0 to 10000: rezovamy sample "
        "80 BUNDLE"
    ),
    "UnknownOption at={at}": (
        "word {at} isn't an option of the command ({counted}); a file comes from standard input: "
        "rezovamy info < FILE"
    ),
    "RepeatedOption at={at}": (
        "the option that is word {at} comes twice ({counted}): leave one out"
    ),
    "MissingValue at={at}": (
        "the last option has no value: add it as word {at} ({counted}), as in --read-limit "
        "1000000"
    ),
    "BadValue at={at}": (
        "word {at} isn't a value of the option before it ({counted}): a limit is decimal digits, "
        "and rezovamy --help has the words of the others"
    ),
    # What a session becomes.
    "SourceFault": (
        "standard input could not be read: pass a file or a pipe, as in rezovamy info < FILE"
    ),
    "SessionTooLarge limit={limit}": (
        "the session has more than {limit} bytes: the option --session-limit of `record` raises "
        "that"
    ),
    "ParseHead": (
        "line 1 isn't the head of a session: `record` reads what session_from_libtest prints; "
        "docs/FORMATS.md describes the head"
    ),
    "ReadRunLog line_number={line_number}": (
        "line {line_number} isn't UTF-8: sessions and logs are text, so ask the tool that wrote it"
    ),
    "ParseEvent line_number={line_number}": (
        "line {line_number} is neither blank nor an event: compare it with the table of kinds in "
        "docs/FORMATS.md"
    ),
    "NameCollision file_name={file_name}": (
        "two different outputs would both be stored as {file_name}, as their digests begin alike: "
        "leave one of them out"
    ),
    "FileTooLarge file_name={file_name} size={size} limit={limit}": (
        "{file_name} has {size} bytes, and {limit} may be read: the option --read-limit {size} "
        "allows it"
    ),
    "MissingTestStart event={event} binary_id={binary_id} test_name={test_name}": (
        "event {event} is of the test {binary_id} {test_name}, which doesn't run at that point: "
        "{contradicts}"
    ),
    "MissingScriptStart event={event} script_id={script_id}": (
        "event {event} is of the setup script {script_id}, which doesn't run at that point: "
        "{contradicts}"
    ),
    "MissingStressSubRunStart event={event}": (
        "event {event} ends a sub-run, and none runs at that point: {contradicts}"
    ),
    "SpanAlreadyOpen event={event} span=Run": (
        "event {event} starts the run, which runs already: {contradicts}"
    ),
    "SpanAlreadyOpen event={event} span=SubRun": (
        "event {event} starts a sub-run, while another runs: {contradicts}"
    ),
    "SpanAlreadyOpen event={event} span=Script {script}": (
        "event {event} starts setup script {script}, which runs already: {contradicts}"
    ),
    "SpanAlreadyOpen event={event} span=Test binary_id={binary_id} test_name={test_name}": (
        "event {event} starts the test {binary_id} {test_name}, which runs already: {contradicts}"
    ),
    "SlotBusy event={event} slot={slot}": (
        "event {event} starts a test on slot {slot}, where another runs: {contradicts}"
    ),
    "CountOutOfRange event=None": "all sizes together are past 64 bits: record less at once",
    "TimestampOutOfRange event={event}": (
        "the instant of event {event} is past 64 bits of microseconds: {contradicts}"
    ),
    "RowOutOfRange event={event} number={number}": (
        "the slot or the script of event {event} has the number {number}, too high for a row: "
        "{contradicts}"
    ),
    "CountOutOfRange event={event}": "event {event} counts more than 64 bits: {contradicts}",
    "BundleFault": (
        "the bundle could not be written whole, and a part of it may be left: check that its "
        "folder is there and can be written, that BUNDLE isn't a folder, and that the disk and "
        "`ulimit -f` have room for it"
    ),
    "TraceFault": (
        "the bundle was written, but not the trace: see where standard output goes, and whether "
        "there is room; `trace` prints it again"
    ),
    "SinkFailed": (
        "standard output could not be written: see that it is open, and that there is room where "
        "it goes; with status 10 of `salvage` it is the file of the bundle that could not be "
        "written"
    ),
    "OutOfMemory": (
        "memory ran out: close other programs or raise the limit of memory; a run needs about "
        "three times its session"
    ),
    "AllocError": "memory ran out for the words: close other programs or raise the limit of memory",
    # What a bundle becomes.
    "SpoolTooLarge limit={limit}": (
        "the bundle has more than {limit} bytes: the option --session-limit raises that"
    ),
    "ReadArchive fault=BadMagic": (
        "this isn't a bundle, or its store is broken: rezovamy record BUNDLE < SESSION makes a "
        "bundle"
    ),
    "ReadArchive fault=Truncated at={at}": (
        "the bundle, or its store, ends at byte {at} before it is whole, as after a broken copy or "
        "a full disk: take another copy, or record again"
    ),
    "ReadArchive fault=BadTag at={at}": "byte {at} begins no entry: {damaged}",
    "ReadArchive fault=BadName at={at}": "the name of an entry at byte {at} isn't text: {damaged}",
    "ReadArchive fault=DuplicateName at={at}": ("the name at byte {at} comes twice: {damaged}"),
    "ReadArchive fault=TrailingBytes at={at}": (
        "there is more after the end, from byte {at} on: {damaged}"
    ),
    "NotAWrapperArchive file_count={file_count} zip_count={zip_count}": (
        "this isn't a bundle, since it has no entry manifest.json: pass the whole file that "
        "`record` wrote"
    ),
    "ParseManifest": (
        "manifest.json of the bundle isn't a manifest: docs/FORMATS.md describes it, so ask the "
        "tool that wrote it"
    ),
    FORMAT_VERSION
    + "MajorMismatch"
    + MAJORS: (
        "the bundle has format {found}, and this rezovamy reads {supported}: read it with the "
        "version that wrote it"
    ),
    FORMAT_VERSION
    + "MinorTooNew"
    + MINORS: ("the bundle has format {found}, and this rezovamy reads up to {supported}: {newer}"),
    STORE_VERSION
    + "RecordingTooOld"
    + MAJORS
    + " guidance=Discard last_nextest_version={last}": (
        "the store has format {found}, which ended with nextest {last}, and this rezovamy reads "
        "{supported}: record the tests again"
    ),
    STORE_VERSION
    + "RecordingTooOld"
    + MAJORS
    + " guidance=Unknown": (
        "the store has the unknown format {found}, and this rezovamy reads "
        "{supported}: record the tests again"
    ),
    STORE_VERSION
    + "RecordingTooNew"
    + MAJORS: ("the store has format {found}, and this rezovamy reads {supported}: {newer}"),
    STORE_VERSION
    + "MinorTooNew"
    + MINORS: ("the store has format {found}, and this rezovamy reads up to {supported}: {newer}"),
    "MissingFile file_name={file_name}": (
        "the bundle has no {file_name}, which `record` always writes: take a whole copy of it"
    ),
    "FileNotFound file_name={file_name}": (
        "the store of the bundle lacks {file_name}, which `record` always writes: take a whole "
        "copy of it"
    ),
    "DeserializeMetadata file_name={file_name}": (
        "{file_name} in the store isn't what docs/FORMATS.md says: ask the tool that wrote the "
        "bundle"
    ),
    "NotUtf8 file_name={file_name}": (
        "{file_name} in the store isn't UTF-8: ask the tool that wrote the bundle"
    ),
    "ForeignEntry file_name={file_name}": (
        "{file_name} has no place in a bundle of today: `upgrade` reads a bundle of manifest, log "
        "and store alone, whose store has metadata and the outputs of its events"
    ),
    "CountOutOfRange": "what is to be written is longer than 64 bits count: take a smaller bundle",
    "BadMagic": (
        "the store in the bundle doesn't begin as one does, so nothing can be salvaged of it: pack "
        "the directory again"
    ),
    "ManifestFault": (
        "the run's folder could not be made, or its manifest could not be written: see that DIR "
        "isn't there yet, and that its parent is there and may be written"
    ),
    "StoreFault": (
        "the outputs could not be written, and what was accepted before is there: see that the "
        "disk and `ulimit -f` have room for store.zip in DIR"
    ),
    "LogFault": (
        "an event could not be written, and what was accepted before is there: see that the disk "
        "and `ulimit -f` have room for run.log.zst in DIR"
    ),
    "OutFault": (
        "an acknowledgement could not be printed, and the recording ended there: see that who "
        "reads them goes on reading"
    ),
    "OpenManifest path={path}": (
        "{path} is missing: name the folder that `live` made. Where it is missing there too, the "
        "recording was stopped before it began"
    ),
    "DiskFault path={path}": "{path} could not be read: see that it may be read",
    "OpenArchive path={path}": (
        "{path} is missing: name the folder that `live` made. Where it is missing there too, the "
        "recording was stopped before it began"
    ),
    "OpenRunLog path={path}": (
        "{path} is missing: the recording was stopped before its first event"
    ),
    "OtherRun": (
        "the head on standard input has another run-id or started-at than the manifest of the "
        "folder: give the head of the same run, or nothing"
    ),
    "MissingMeta file_name={file_name}": (
        "the store was stopped before {file_name} was whole, so no event stands in it: there is "
        "nothing to salvage"
    ),
    "BadMeta file_name={file_name}": (
        "{file_name} in the store isn't what docs/FORMATS.md says, so nothing is salvaged: ask the "
        "tool that wrote the store"
    ),
    "ReadError ReadRunLog line_number={line_number}": (
        "line {line_number} of the bundle's log isn't UTF-8: {damaged}"
    ),
    "ReadError ParseEvent line_number={line_number}": (
        "line {line_number} of the bundle's log isn't an event: compare it with the table of kinds "
        "in docs/FORMATS.md"
    ),
    "TestNotFound binary_id={binary_id} test_name={test_name}": (
        "the test {binary_id} {test_name} ran, and the test list of the head lacks it: add it "
        "there, and record again; `trace` reads the bundle as it is"
    ),
    "InvalidStressCount": (
        "a run of the log starts with a stress count of 0: ask the tool that wrote the session for "
        "1 or more"
    ),
    "RecordRead FileNotFound file_name={file_name}": (
        "the store of the bundle lacks the output {file_name}: take a whole copy; --output skip "
        "does without outputs"
    ),
    "RecordRead FileTooLarge file_name={file_name} size={size} limit={limit}": (
        "the output {file_name} has {size} bytes, and {limit} may be read: the option --read-limit "
        "{size} allows it"
    ),
    "OutputChanged file_name={file_name}": (
        "the bytes of the output {file_name} have changed since they were recorded: take another "
        "copy of the bundle; --output skip does without outputs"
    ),
    "SuccessAsFailure": (
        "an attempt of a test follows one that passed, so there is no report: ask the tool that "
        "wrote the session"
    ),
    "NotOneRun": (
        "the log isn't that of one run from its start to its end, so its slots have no times: take "
        "the bundle of a run that finished"
    ),
    "AttemptOutside event={event}": (
        "event {event} starts an attempt of a test that doesn't end before the run does, or starts "
        "before it: {contradicts}"
    ),
    "StampFell event={event}": (
        "the instant of event {event} is before that of the event before it, so times between them "
        "mean nothing: see whether a clock was set back while the run was recorded"
    ),
}
