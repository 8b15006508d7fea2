"""Tests gettext_catalogue.py over two folders of messages. In each file, `who` is the name of its folder."""
import pathlib
import struct
import tempfile
import unittest

import gettext_catalogue

FOLDERS = {
    "few": "zh zh_Hans zh_Hant sr sr@latin pt pt_PT en he id fil",
    "many": "en de de_AT pt pt_BR zh_CN zh_TW zh_HK sr sr@latin ca ca@valencia es es_MX nb fr uz@cyrillic",
}

# A folder, a locale, and the folder of its messages.
FOUND = [
    ("few", "zh_TW.UTF-8", "zh_Hant"), ("few", "sr_ME.UTF-8", "sr@latin"), ("few", "pt_AO.UTF-8", "pt_PT"), ("few", "zh-Hant_TW", "zh_Hant"),
    ("few", "zh-Hans_CN", "zh_Hans"), ("few", "zh_CN", "zh"), ("few", "pt-Latn_AO", "pt_PT"), ("many", "ca_ES.UTF-8@valencia", "ca@valencia"),
    ("many", "zh-Hant_HK", "zh_HK"), ("many", "zh-Hans_CN", "zh_CN"), ("many", "zh_TW_#Hant", "zh_TW"), ("many", "zh_MO.UTF-8", "zh_HK"),
    ("many", "sr_RS@latin", "sr@latin"), ("many", "sr_ME", "sr@latin"), ("many", "fi_FI", "who"),
    ("few", "iw_IL", "he"), ("few", "in_ID.UTF-8", "id"), ("few", "tl_PH", "fil"), ("few", "C.UTF-8", "who"), ("few", "POSIX", "who"), ("few", "", "who"),
]


def compiled(messages):
    """Returns the bytes of a file .mo: a head, the lengths and offsets of the keys and of the messages, and both, in the order of the keys."""
    pairs = [[text.encode() for text in pair] for pair in sorted(messages.items())]
    texts = [pair[0] for pair in pairs] + [pair[1] for pair in pairs]
    table, data = b"", b""
    for text in texts:
        table += struct.pack("<II", len(text), 28 + 8 * len(texts) + len(data))
        data += text + b"\0"
    return struct.pack("<7I", 0x950412DE, 0, len(pairs), 28, 28 + 8 * len(pairs), 0, 0) + table + data


class Gettext(unittest.TestCase):
    def setUp(self):
        folder = tempfile.TemporaryDirectory()
        self.addCleanup(folder.cleanup)
        self.root = pathlib.Path(folder.name)
        for name in (pathlib.Path(kind, name) for kind, names in FOLDERS.items() for name in names.split()):
            path = self.root / name / "LC_MESSAGES" / "app.mo"
            path.parent.mkdir(parents=True)
            path.write_bytes(compiled({"": "Content-Type: text/plain; charset=UTF-8\n", "who": name.name, name.name: "here"}))

    def test_found(self):
        for folder, locale, wanted in FOUND:
            with self.subTest(locale=locale):
                self.assertEqual(gettext_catalogue.translations("app", self.root / folder, locale).gettext("who"), wanted)

    def test_fallback(self):
        messages = gettext_catalogue.translations("app", self.root / "few", "pt_AO")
        self.assertEqual([messages.gettext(name) for name in ("pt_PT", "pt", "en")], ["here", "here", "en"])
