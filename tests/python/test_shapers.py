"""The ways in which `hordguli.harfbuzz` uses HarfBuzz. Needs Debian's HarfBuzz, PyGObject and fonts.

Debian has no package `uharfbuzz`. In its place, a stand-in with its interface calls HarfBuzz through PyGObject.
"""

import gc
import random
import resource
import sys
import tempfile
import threading
import types
import unicodedata

import hordguli
import pytest
from hordguli import ParagraphText, Piece, Run, _shapers, harfbuzz
from hordguli._shapers import Introspected, Library, Uharfbuzz
from hordguli.harfbuzz import Measure

FONTS = [f"/usr/share/fonts/truetype/noto/{name}-Regular.ttf" for name in ("NotoSans", "NotoSansHebrew", "NotoSansArabic", "NotoSansDevanagari")]
DEJAVU = "/usr/share/fonts/truetype/dejavu/DejaVuSans.ttf"
# Kerned pairs, ligatures, marks, digits, brackets, tabs, controls and characters that no font has.
SCRIPTS = {
    "Latin": "AVAVA Toffice (To) e\u0301x\u0302 naïve ﬁ\tx\u200d\u0007 \u6f22 12,5",
    "Hebrew": "שָׁלוֹם עולם [ספר] 12.50 ₪ בית־ספר\u200f",
    "Arabic": "لالا لآ مُحَمَّد (١٢٣) 123 سلام\u200cكتب\t",
    "Cyrillic": "Привет, мир! Ге\u0301 То ещё «слово» 7-й",
    "Devanagari": "हिन्दी क्षेत्र विश्व र्क १२३ की\u200dक नमस्ते।",
}


class UharfbuzzBuffer:
    """`Buffer` of uharfbuzz."""

    direction = script = None

    def add_codepoints(self, codepoints, item_offset=0, item_length=-1):
        self.given = codepoints, item_offset, len(codepoints) - item_offset if item_length < 0 else item_length

    def guess_segment_properties(self):
        self.script = Introspected().script(chr(self.given[0][0]))


class UharfbuzzFont:
    """`Font` of uharfbuzz."""

    def __init__(self, face):
        self._hb, self._font = face._hb, face._hb.font_create(face._face)

    scale = property(None, lambda self, scale: self._hb.font_set_scale(self._font, *scale))

    def get_nominal_glyph(self, unicode):
        has, glyph = self._hb.font_get_nominal_glyph(self._font, unicode)
        return glyph if has else None


class UharfbuzzFace:
    """`Face` of uharfbuzz."""

    def __init__(self, blob, index=0):
        assert isinstance(blob, bytes)
        self._hb = Introspected()._hb
        with tempfile.NamedTemporaryFile() as file:  # (PyGObject has no `hb_blob_create`)
            file.write(blob)
            file.flush()
            self._face = self._hb.face_create(self._hb.blob_create_from_file(file.name), index)
        self.glyph_count = self._hb.face_get_glyph_count(self._face)


def uharfbuzz_shape(font, buf, features=None):
    shaper = Introspected()
    text, first, length = buf.given
    clusters, advances = shaper.shape(font._font, "".join(map(chr, text)), first, length, buf.script, {"ltr": False, "rtl": True}[buf.direction])
    buf.glyph_infos = [types.SimpleNamespace(cluster=cluster) for cluster in clusters]
    buf.glyph_positions = [types.SimpleNamespace(x_advance=advance) for advance in advances]


@pytest.fixture
def uharfbuzz(monkeypatch):
    """Installs the stand-in."""
    module = types.ModuleType("uharfbuzz")
    module.Buffer, module.Font, module.Face, module.shape = UharfbuzzBuffer, UharfbuzzFont, UharfbuzzFace, uharfbuzz_shape
    monkeypatch.setitem(sys.modules, "uharfbuzz", module)


@pytest.fixture(params=[Introspected, Uharfbuzz])
def other(request, uharfbuzz):
    """A way to use HarfBuzz other than the library itself."""
    return request.param


def through(monkeypatch, shaper, *arguments):
    """Returns a `Measure` that uses HarfBuzz in one of the three ways."""
    with monkeypatch.context() as patched:
        patched.setattr(harfbuzz, "_Shaper", shaper)
        return Measure(*arguments)


def paragraph(text, direction=hordguli.Options.WEAK_LTR):
    """Returns what a session measures."""
    found = []
    with hordguli.Session(text, 1, direction, measure=lambda one: found.append(one) or [0] * len(one.text)):
        return found[0]


def cut(text, rng):
    """Returns a paragraph with any level runs."""
    ends = sorted({*(rng.randrange(1, len(text)) for _ in range(5)), len(text)})
    return ParagraphText(text, 0, tuple(Run(start, end - start, rng.randrange(4)) for start, end in zip([0, *ends], ends)))


def reference(measure, given, shaper):
    """Measures a paragraph as `Measure` does, but decides for one character at a time, and keeps nothing."""
    fonts, advances = [shaper.open(file, measure.scale) for file in measure.files], [0] * len(given.text)
    for start, length, level in given.runs:
        script, font, parts = None, 0, []
        scripts = [shaper.script(c) for c in given.text[start : start + length]]
        script = next((one for one in scripts if one), "Zyyy")
        for place, c in enumerate(given.text[start : start + length], start):
            having, category = [at for at, one in enumerate(fonts) if shaper.has(one, c)], unicodedata.category(c)
            script = scripts[place - start] or script
            stays = place > start and (category == "Cf" or category[0] == "M" and font in having)
            font = having[0] if having and not stays else font
            if category in ("Cc", "Zl", "Zp"):
                continue
            if parts and parts[-1][1:] == [place, font, script]:
                parts[-1][1] = place + 1
            else:
                parts.append([place, place + 1, font, script])
        for first, end, font, script in parts:
            for cluster, advance in zip(*shaper.shape(fonts[font], given.text, first, end - first, script, level % 2 == 1)):
                advances[cluster] += advance
    tab = 8 * sum(shaper.shape(fonts[0], " ", 0, 1, "Zyyy", False)[1])
    return [tab if c == "\t" else max(0, advance) for c, advance in zip(given.text, advances)]


def with_files(files, size):
    measure = Measure(files, size)
    measure.files, measure.scale = files, round(64 * size)
    return measure


# ---- The three ways ----


@pytest.mark.parametrize("script", SCRIPTS)
@pytest.mark.parametrize("files", [FONTS, FONTS[::-1], [DEJAVU]])
def test_all_ways_measure_the_same(script, files, other, monkeypatch):
    rng, ways = random.Random(88), [through(monkeypatch, shaper, files, 20.5) for shaper in (Library, other)]
    assert [type(way._shaper) for way in ways] == [Library, other]
    for text in (f"abc {SCRIPTS[script]} \u05d0\u0628", f"\u05d0 ({SCRIPTS[script]} \u05d0\u05d1"):
        for given in (*(paragraph(text, one) for one in (hordguli.Options.LTR, hordguli.Options.RTL)), *(cut(text, rng) for _ in range(8))):
            advances = [way(given) for way in ways]
            assert advances[0] == advances[1] == reference(with_files(files, 20.5), given, other()) and len(advances[0]) == len(text)
        piece = Piece(0, text, 1, 0, 0)
        assert ways[0].parts(piece) == ways[1].parts(piece) != []


def test_all_ways_refuse_files_that_are_no_fonts(other, monkeypatch):
    for shaper in (Library, other):
        with pytest.raises(ValueError) as caught:
            through(monkeypatch, shaper, __file__, 20)
        assert str(caught.value) == f"{__file__} is no font"
        with pytest.raises(FileNotFoundError):
            through(monkeypatch, shaper, "/nonexistent.ttf", 20)


def test_all_ways_know_scripts(other):
    shapers = Library(), other()
    for c in "aא بहЯ漢1 \u0301\U0001f600\ue000\u0378\U0010ffff":
        assert len({shaper.script(c) for shaper in shapers}) == 1, c
    assert [shapers[0].script(c) for c in "aא1\u0301"] == ["Latn", "Hebr", None, None]


def test_the_first_way_that_works_is_used(uharfbuzz, monkeypatch):
    assert _shapers.find_shaper() is Library and type(Measure(DEJAVU, 20)._shaper) is Library
    monkeypatch.setattr(_shapers, "NAME", "libnone.so.0")
    assert _shapers.find_shaper() is Introspected
    monkeypatch.setitem(sys.modules, "gi", None)
    assert _shapers.find_shaper() is Uharfbuzz
    monkeypatch.setitem(sys.modules, "uharfbuzz", None)
    with pytest.raises(ImportError):
        _shapers.find_shaper()


# ---- What is kept ----


def test_random_edits_measure_what_a_new_measure_does():
    rng, measure, shaper = random.Random(88), with_files(FONTS, 20), Introspected()
    letters = "".join(SCRIPTS.values())
    for text in SCRIPTS.values():
        for _ in range(25):
            pos = rng.randrange(len(text))
            text = text[:pos] + "".join(rng.choices(letters, k=rng.randrange(3))) + text[pos + rng.randrange(3) :]
            for given in (paragraph(text), cut(text, rng)):
                assert measure(given) == reference(measure, given, shaper)


def test_long_texts_are_measured_like_short_ones():
    measure, text = with_files(FONTS, 20), " ".join(SCRIPTS.values()) * 6
    given = paragraph(text)
    assert measure(given) == reference(measure, given, Introspected())
    long = ParagraphText("AV" * 100_000, 0, (Run(0, 200_000, 0),))
    assert set(measure(long)[2:-2]) == set(measure(ParagraphText("AV" * 9, 0, (Run(0, 18, 0),)))[2:-2])
    assert measure(given) == reference(measure, given, Introspected())


def test_what_is_kept_is_bounded():
    measure = Measure(DEJAVU, 20)
    for k in range(2 * harfbuzz._MOST_KNOWN):
        text = f"a{k}" + "x" * (k % 130)
        assert len(measure(ParagraphText(text, 0, (Run(0, len(text), 0),)))) == len(text)
    for known in (measure._runs, measure._parts):
        assert 0 < len(known) <= harfbuzz._MOST_KNOWN and max(len(key[0]) for key in known) <= harfbuzz._LONGEST_KNOWN
    for c in map(chr, range(0x4E00, 0x5000)):
        measure(ParagraphText(f"中{c}", 0, (Run(0, 2, 0),)))
    assert max(map(len, measure._staying.values())) <= harfbuzz._MOST_STAYING


def test_a_result_may_be_changed():
    measure, given = Measure(DEJAVU, 20), paragraph("ab")
    advances = measure(given)
    advances[0] = 7
    assert measure(given)[0] != 7


def resident():
    """Returns how many kibibytes of memory the process has had at most."""
    gc.collect()
    return resource.getrusage(resource.RUSAGE_SELF).ru_maxrss


def test_no_memory_is_lost():
    shaper = Library()
    font, text = shaper.open(DEJAVU, 1280), SCRIPTS["Arabic"]

    def shape(count):
        for _ in range(count):
            shaper.shape(font, text, 2, 5, "Arab", True)

    def open_and_close(count):
        for _ in range(count):
            measure = Measure(DEJAVU, 20)
            measure(ParagraphText("abc", 0, (Run(0, 3, 0),)))
            with pytest.raises(ValueError):
                shaper.open(__file__, 1280)

    for work, count in ((shape, 100_000), (open_and_close, 1000)):
        work(count // 10)
        before = resident()
        work(count)
        assert resident() - before < 2048, work
    assert len(shaper._buffers) == 1


def test_a_measure_frees_what_it_has():
    freed, measure = [], Measure(DEJAVU, 20)
    for owned in (*measure._fonts, *measure._shaper._buffers):
        destroy = owned._destroy
        owned._destroy = lambda pointer, destroy=destroy: (freed.append(pointer), destroy(pointer))
    del measure, owned
    assert len(freed) == 2  # (they are freed immediately, since no cycle holds them)


def test_threads_share_a_measure():
    measure, given = Measure(FONTS, 20), [paragraph(text) for text in SCRIPTS.values()]
    wanted, found = [Measure(FONTS, 20)(one) for one in given], []

    def work():
        for _ in range(60):
            measure._runs.clear()
            measure._parts.clear()
            found.append([measure(one) for one in given] == wanted)

    interval = sys.getswitchinterval()
    sys.setswitchinterval(1e-6)
    threads = [threading.Thread(target=work) for _ in range(6)]
    for thread in threads:
        thread.start()
    for thread in threads:
        thread.join(60)
    sys.setswitchinterval(interval)
    assert found == [True] * 360 and len(measure._shaper._buffers) <= 6


def test_an_allocation_failure_is_reported():
    measure, given = Measure(DEJAVU, 20), paragraph("abc")
    wanted = Measure(DEJAVU, 20)(given)
    hb, successful = measure._shaper._hb, measure._shaper._hb.hb_buffer_allocation_successful
    hb.hb_buffer_allocation_successful = lambda pointer: 0
    with pytest.raises(MemoryError):
        measure(given)
    hb.hb_buffer_allocation_successful = successful
    assert measure(given) == wanted
