"""Which lines each command may print, by docs/FORMAT.md and the man page, and the exit status that the last one has."""
import re

N, HEX, UUID, NAME = r"\d+", r"[0-9a-f]{16}", r"[0-9a-f]{8}(?:-[0-9a-f]{4}){3}-[0-9a-f]{12}", r"(?:[ -\[\]-~]|\\x[0-9a-f]{2})*"
KEY = rf"\({N} (?:[A-Z_]+|UNKNOWN\.{N}) {N}\)"
CAUSE = "(?:lost|malformed|unmapped|crosses)"


def lines(*forms):
    """One expression of the lines of these forms: N is a number, and HEX, UUID, NAME and KEY are what they say."""
    parts = []
    for form in forms:
        form = re.escape(form).replace("\\ ", " ")
        parts.append(re.sub(r"\b(?:N|HEX|UUID|NAME|KEY|CAUSE)\b", lambda it: globals()[it[0]], form))
    return re.compile("(?:" + "|".join(parts) + ")")


ERRORS = (
    (1, lines("lost block N", "malformed block N", "unmapped address N", "block N crosses a stripe element")),
    (2, lines("usage error at word N")),
    (3, lines("image N has no valid superblock", "checksum type N is not supported", "image N belongs to another filesystem", "image N repeats a device",
              "image N has diverged", "unsupported features HEX", "unsupported geometry", "a log tree is pending", "the system chunk array is damaged",
              "bad chunk N", "too many images: N", "too many stripes: N", "too many chunks: N", "no tree N", "tree N is being deleted", "a balance is pending",
              "device N is not given")),
    (4, lines("image N failed", "the destination failed", "unread block N on image N")),
    (5, lines("no memory")),
)

ROOT = "tree N offset N bytenr N level N generation N"
REFERENCES = ("tree ref root N", "shared tree ref parent N", "file ref root N objectid N offset N count N", "shared file ref parent N count N")
BODIES = (
    "size N nlink N mode N flags HEX", "index N namelen N name NAME", "parent N index N namelen N name NAME",
    "location KEY kind N transid N datalen N namelen N name NAME", "location KEY kind N transid N datalen N namelen N name NAME",
    "generation N inline bytes N ram N compression N", "generation N regular disk N length N offset N bytes N ram N compression N",
    "generation N prealloc disk N length N offset N bytes N ram N compression N", "range start N end N length N",
    "generation N dirid N bytenr N level N flags HEX refs N", "dirid N sequence N namelen N name NAME",
    "refs N generation N flags HEX", "block key KEY level N",
    *REFERENCES, "used N owner N flags HEX", "chunk N length N", "devid N total N used N uuid UUID",
    "length N owner N stripe_len N type HEX stripes N sub_stripes N", "stripe N devid N offset N uuid UUID",
)
FINDINGS = (
    "lost N", "malformed N", "unmapped N", "crosses N", "outside-group N N", "overlap N N", "ref-count N N N N N N N", "ref-total N N N", "extent-kind N N",
    "extent-length N N N", "extent-level N N N", "sum-missing N N N", "sum-overlap N", "sum-stray N", "entry-item N N N", "entry-index N N N",
    "entry-ref N N N",
    "ref-entry N N N N", "entry-mode N N N", "link-count N N N N", "dir-size N N N N", "orphan N N", "root-ref N N", "chunk-group N", "group-chunk N",
    "chunk-device N N N", "device-chunk N N", "group-used N N N", "device-used N N N", "total-used N N", "data-lost N",
)
CAUSES = ("name", "symlink", "special", "missing", "size", "compressed", "encoded", "depth", "link", "snapshot", "subvolume", "path")
LISTING = (*(f"skip {cause} NAME" for cause in CAUSES), "dir NAME", "file NAME", "unverified NAME")
DONE = "directories N files N skipped N"

# Of each command the lines before the last, the last line where all is well, and that where something was found.
FORMS = {
    "super": (lines("slot N place N", "fsid UUID", "metadata_uuid UUID", "label [NAME]", "generation N", "root N level N", "chunk_root N level N generation N",
                    "log_root N", "total_bytes N", "bytes_used N", "num_devices N", "sectorsize N nodesize N", "csum_type N",
                    "compat HEX compat_ro HEX incompat HEX", "devid N"), None, None),
    "dump": (re.compile("|".join((lines("tree N offset N", ROOT, "leaf N items N generation N owner N", "node N level N items N generation N owner N").pattern,
                                  r"\t" + lines("key KEY block N gen N", "item N key KEY itemoff N itemsize N").pattern,
                                  r"\t\t" + lines(*BODIES).pattern, r"\t\traw(?: [0-9a-f]*)?"))), None, None),
    "check": (lines(*FINDINGS), lines("no findings"), lines("findings N")),
    "scrub": (re.compile("(?!)"), lines("blocks N bad N repaired N lost 0 parity N unchecked N"),
              lines("blocks N bad N repaired N lost N parity N unchecked N")),
    "restore": (lines(*LISTING), lines("directories N files N skipped 0"), lines(DONE)),
    "salvage": (lines(*LISTING, "broken CAUSE N NAME", "part CAUSE N NAME"), lines("directories N files N skipped 0 broken 0"), lines(DONE + " broken N")),
    "send": (lines(*LISTING), lines("directories N files N skipped 0"), lines(DONE)),
    "resolve": (lines("tree N inode N position N path NAME", "tree N inode N position N path ?"), lines("owners N"), None),
}


def strange(command, text, status):
    """What no definition has in a text and its exit status, or None."""
    if not text.endswith(b"\n"):
        return "no line at all" if not text else "a last line without an end"
    try:
        every = text.decode("ascii")[:-1].split("\n")
    except UnicodeDecodeError:
        return "bytes that are no ASCII"
    before, well, found = FORMS[command]
    last = every[-1]
    if last.startswith("error: "):
        for code, form in ERRORS:
            if form.fullmatch(last[7:]):
                every.pop()
                return wrong_line(before, every) or (None if status == code else f"status {status} of {last!r}")
        return f"{last!r}"
    if well is None and found is None:
        return wrong_line(before, every) or (None if status == 0 else f"status {status} without an error")
    for code, form in ((0, well), (1, found)):
        if form and form.fullmatch(last):
            every.pop()
            return wrong_line(before, every) or (None if status == code else f"status {status} of {last!r}")
    return f"{last!r}"


def wrong_line(form, every):
    for line in every:
        if not form.fullmatch(line):
            return f"{line[:200]!r}"
    return None
