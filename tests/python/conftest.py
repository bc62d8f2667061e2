"""Fixtures and functions that several tests use."""

import pathlib

import hordguli
import pytest
from hordguli import Options
from hypothesis import HealthCheck, settings

DIRECTIONS = Options.WEAK_LTR, Options.WEAK_RTL, Options.LTR, Options.RTL

# Each run uses the same examples. Their time is not limited, since other tests may run at the same time.
settings.register_profile("fixed", derandomize=True, database=None, deadline=None, suppress_health_check=[HealthCheck.too_slow])
settings.load_profile("fixed")


@pytest.fixture
def folder():
    """The folder of the table files of Unicode 15.0."""
    return pathlib.Path(__file__).parents[2] / "ucd"


@pytest.fixture
def folder_17(folder):
    """The folder of the table files of Unicode 17.0."""
    return folder.with_name("ucd-17.0")


@pytest.fixture
def files(folder):
    """The contents of the table files."""
    return [(folder / name).read_bytes() for name in hordguli.TABLE_FILES]


def measured(content, width):
    """Opens a measured session in which each character has advance 10."""
    text = hordguli.Session.open_measured(content, width)
    text.set_advances(0, [10] * len(content))
    return text


def tens(paragraph):
    """A function `measure`: each character has advance 10."""
    return [10] * len(paragraph.text)


def measuring(content, width):
    """Opens a session that measures its text."""
    return hordguli.Session(content, width, measure=tens)


def state_of(text):
    """Returns all that a session holds, except its work counters."""
    paragraphs = tuple(text.paragraph(index) for index in range(text.counts.paragraphs))
    return text.counts, text.text(), tuple(text), paragraphs
